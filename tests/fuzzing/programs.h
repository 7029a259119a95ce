/* Programs of versions 2 and 3, read by the rules of docs/MACHINE.md apart from the library. */
#ifndef PROGRAMS_H
#define PROGRAMS_H

#include "fuzzing.h"

enum { MOST_BYTES = 1024, MOST_COST = 700 };

enum shape { NOTHING, INDEX, TXN, GLOBAL, GROUP, ARRAY, GROUP_ARRAY, BOUNDS, OFFSET, UINTS, STRINGS, UINT, STRING };

struct row {
    uint8_t code, version, cost;
    enum shape shape;
    const char *name;
};

struct instruction {
    size_t place, next;
    const struct row *row;
    size_t target; /* the number of the instruction that a branch leads to, or their count */
};

struct program {
    struct bytes bytes;
    uint64_t version;
    size_t count;
    unsigned cost;
    struct instruction at[MOST_BYTES];
};

/* Whether the bytes keep every rule of programs but that on costs. What was read before a broken rule stands in the program. */
bool read_program(struct bytes bytes, struct program *program);

/* Whether the two have the same instructions: opcodes, immediates as numbers and bytes, and targets. */
bool are_same_instructions(const struct program *one, const struct program *other);

/* Whether an instruction or the end of the program stands at the place. */
bool is_place(const struct program *program, size_t place);

/* The row's number in the table, counted from 0. */
unsigned number_of(const struct row *row);

/* The instruction at the place, or null where there is none or the program's end. */
const struct instruction *instruction_at(const struct program *program, size_t place);

/* Counts the opcodes of a program, and its pairs of neighbours. */
void note_program(const struct program *program);

/* A random change of a program's bytes; gives the length, of at most `room`. A version stays in front of instructions, and
   branches lead to the instructions that they led to. */
size_t mutate_program(uint8_t *at, size_t length, size_t room, uint32_t seed);

#endif
