/* What the targets of this folder share. Each target has one function that libFuzzer calls with an input, and tells it by the
   counters of `note` what the input reached, since the library has no coverage of its own. */
#ifndef FUZZING_H
#define FUZZING_H

#include "../embedding/calls.h"

#include <stdbool.h>

/* What is counted: statuses by function, endings by entry, faults by opcode, opcodes of programs, pairs of them, names in
   refusals, and what views show. */
enum kind { STATUSES, ENDINGS, FAULTS, OPCODES, PAIRS, NAMES, VIEWS, KINDS };

void note(enum kind kind, unsigned value);

/* A number from bytes, for what is chosen by the input. */
uint32_t hash_of(const void *at, size_t length);

/* Ends the run: a property does not hold. */
_Noreturn void wrong(const char *what);

static inline void demand(bool holds, const char *what) {
    if (!holds) wrong(what);
}

static inline struct bytes bytes_of(const void *at, size_t length) {
    struct bytes bytes = {(uint8_t *)at, length};
    return bytes;
}

static inline struct bytes answered(struct answer *answer) {
    return bytes_of(answer->room, answer->written);
}

bool are_same(struct bytes one, struct bytes other);

/* Makes a call, and looks at what every call promises: memory is not said to be refused where it was not, nothing stays
   allocated, and nothing is written but the answer. For some inputs also: too little room is said, with the size that is
   wanted; a refused allocation is said; and the same call gives the same. Returns the status. */
uint32_t called(struct call call, struct answer *answer);

/* The answer of avm_c_answer to words, which zero bytes part, and an input. */
uint32_t asked(struct bytes words, struct bytes input, struct answer *answer);

#endif
