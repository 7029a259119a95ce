/* avm_c_assemble: a program that is assembled breaks no rule but that on costs, the command `asm` says the same, and its listing
   is as look_at_listing wants it. */
#include "listings.h"

#include <string.h>

enum { LONGEST_TEXT = 1 << 14 };

static void look_at_program(struct bytes bytes) {
    static struct answer answer;
    static struct program program;
    static uint8_t digits[2 * MOST_BYTES + 1];
    static const char refusal[] = "refused check Cost\n";
    struct call call = {CHECK, bytes, bytes_of("", 0), 0, 0, {NULL, 0}};
    demand(bytes.length <= MOST_BYTES, "a program of more than 1024 bytes");
    demand(read_program(bytes, &program), "what was assembled breaks a rule");
    note_program(&program);
    uint32_t status = called(call, &answer);
    demand((status == AVM_DONE) == (program.cost <= MOST_COST), "check refuses what was assembled for another rule than Cost");
    if (status == AVM_DONE) {
        look_at_listing(bytes);
        return;
    }
    status = asked(bytes_of("check", 5), bytes_of(digits, hex_of(bytes, digits)), &answer);
    demand(status == AVM_REFUSED && are_same(answered(&answer), bytes_of(refusal, sizeof refusal - 1)), "check names another rule");
}

size_t LLVMFuzzerMutate(uint8_t *at, size_t length, size_t room);

/* Now and then a text becomes the listing of a changed program; else bytes or words of it change. */
size_t LLVMFuzzerCustomMutator(uint8_t *data, size_t size, size_t room, unsigned int seed) {
    static struct answer made, text;
    static uint8_t program[MOST_BYTES];
    struct call assemble = {ASSEMBLE, bytes_of(data, size), bytes_of("", 0), 0, 0, {NULL, 0}};
    if (seed % 4) return LLVMFuzzerMutate(data, size, room);
    make(&assemble, &made, ROOM);
    if (made.status != AVM_DONE) return LLVMFuzzerMutate(data, size, room);
    memcpy(program, made.room, made.written);
    struct call list = {LIST, bytes_of(program, mutate_program(program, made.written, sizeof program, seed)), bytes_of("", 0), 0, 0, {NULL, 0}};
    make(&list, &text, ROOM);
    if (text.status != AVM_DONE || text.written > room) return LLVMFuzzerMutate(data, size, room);
    memcpy(data, text.room, text.written);
    return text.written;
}

int LLVMFuzzerTestOneInput(const uint8_t *at, size_t length) {
    static struct answer answer, command;
    static uint8_t program[ROOM], digits[2 * MOST_BYTES + 1];
    if (length > LONGEST_TEXT) return 0;
    struct bytes text = bytes_of(at, length);
    uint32_t status = assembled(text, &answer), other = asked(bytes_of("asm", 3), text, &command);
    demand(status == AVM_DONE || status == AVM_NO_TEXT || status == AVM_NOT_ASSEMBLED, "assemble has another status");
    demand((status == AVM_DONE) == (other == AVM_DONE), "the command `asm` says otherwise");
    demand((status == AVM_NO_TEXT) == (command.written == 14 && memcmp(command.room, "refused input\n", 14) == 0 && other == 1),
           "the command `asm` gives another reason");
    if (status != AVM_DONE) return 0;
    memcpy(program, answer.room, answer.written);
    struct bytes bytes = bytes_of(program, answer.written);
    demand(are_same(answered(&command), bytes_of(digits, hex_of(bytes, digits))), "the command `asm` gives another program");
    look_at_program(bytes);
    return 0;
}
