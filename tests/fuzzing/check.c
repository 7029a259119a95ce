/* avm_c_check: the bytes are a program exactly where they keep the rules, which are read here apart from the library; `check`
   says how many instructions there are, and what they cost. */
#include "listings.h"

#include <stdio.h>
#include <string.h>

int LLVMFuzzerTestOneInput(const uint8_t *at, size_t length) {
    static struct answer answer;
    static struct program program;
    static uint8_t digits[8 * MOST_BYTES];
    char wanted[64];
    if (length > 2 * MOST_BYTES) return 0;
    struct bytes bytes = bytes_of(at, length), words = bytes_of("check", 5);
    struct call call = {CHECK, bytes, bytes_of("", 0), 0, 0, {NULL, 0}};
    bool is_program = read_program(bytes, &program) && program.cost <= MOST_COST;
    uint32_t status = called(call, &answer);
    demand(status == AVM_DONE || status == AVM_NO_PROGRAM, "check has another status");
    demand((status == AVM_DONE) == is_program, "the rules of programs say otherwise");
    note_program(&program);
    struct bytes input = bytes_of(digits, hex_of(bytes, digits));
    uint32_t other = asked(words, input, &answer);
    demand((status == AVM_DONE) == (other == AVM_DONE), "the command `check` says otherwise");
    if (status != AVM_DONE) return 0;
    int count = snprintf(wanted, sizeof wanted, "ok instructions %zu cost %u\n", program.count, program.cost);
    demand(are_same(answered(&answer), bytes_of(wanted, (size_t)count)), "the instructions or their cost are others");
    return 0;
}
