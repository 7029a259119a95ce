#include "listings.h"

#include <string.h>

uint32_t assembled(struct bytes text, struct answer *answer) {
    struct call call = {ASSEMBLE, text, bytes_of("", 0), 0, 0, {NULL, 0}};
    return called(call, answer);
}

uint32_t listed(struct bytes program, struct answer *answer) {
    struct call call = {LIST, program, bytes_of("", 0), 0, 0, {NULL, 0}};
    return called(call, answer);
}

size_t hex_of(struct bytes bytes, uint8_t *to) {
    static const char digits[] = "0123456789abcdef";
    for (size_t i = 0; i < bytes.length; i++) {
        to[2 * i] = (uint8_t)digits[bytes.at[i] >> 4];
        to[2 * i + 1] = (uint8_t)digits[bytes.at[i] & 15];
    }
    to[2 * bytes.length] = '\n';
    return 2 * bytes.length + 1;
}

void look_at_listing(struct bytes bytes) {
    static struct answer listing, again, made, same;
    static struct program program, other;
    demand(listed(bytes, &listing) == AVM_DONE, "a program has no listing");
    demand(assembled(answered(&listing), &made) == AVM_DONE, "a listing does not assemble");
    demand(read_program(bytes, &program) && read_program(answered(&made), &other), "no program by the rules");
    demand(are_same_instructions(&program, &other), "a listing assembles to other instructions");
    demand(made.written <= bytes.length, "a listing assembles to more bytes");
    demand(listed(answered(&made), &again) == AVM_DONE, "a program that was assembled has no listing");
    demand(are_same(answered(&listing), answered(&again)), "the listing of an assembled listing is another");
    demand(assembled(answered(&again), &same) == AVM_DONE, "a second listing does not assemble");
    demand(are_same(answered(&made), answered(&same)), "a second listing assembles to other bytes");
}
