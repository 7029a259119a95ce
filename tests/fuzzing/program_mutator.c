/* Changes of inputs that are a program. */
#include "programs.h"

size_t LLVMFuzzerCustomMutator(uint8_t *data, size_t size, size_t room, unsigned int seed) {
    return mutate_program(data, size, room, seed);
}
