/* avm_c_list: bytes have a listing exactly where they are a program, and look_at_listing says what it has to be. */
#include "listings.h"

int LLVMFuzzerTestOneInput(const uint8_t *at, size_t length) {
    static struct answer answer;
    static struct program program;
    if (length > 2 * MOST_BYTES) return 0;
    struct bytes bytes = bytes_of(at, length);
    struct call call = {CHECK, bytes, bytes_of("", 0), 0, 0, {NULL, 0}};
    uint32_t checked = called(call, &answer), status = listed(bytes, &answer);
    demand(status == AVM_DONE || status == AVM_NO_PROGRAM, "list has another status");
    demand(checked == status, "what check says of the bytes is not what list says");
    if (status != AVM_DONE) return 0;
    read_program(bytes, &program);
    note_program(&program);
    look_at_listing(bytes);
    return 0;
}
