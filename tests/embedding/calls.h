/* A call of any function of avm.h, and all that it can write. */
#ifndef CALLS_H
#define CALLS_H

#include "avm.h"

enum function { CHECK, ASSEMBLE, LIST, REPLAY, APPLY, STATE, VIEW, ANSWER, JSON, ATTEMPT, CALL, PROPOSE, TRACE, DIAGNOSE };

struct bytes {
    uint8_t *at;
    size_t length;
};

/* One call: of a program, a text or bytes that were refused the first bytes, of a ledger and a block both, of words and an input both,
   of a header, a call and items all three, and so of a ledger, a header and a call or calls. */
struct call {
    enum function function;
    struct bytes first, second;
    uint64_t entry, number; /* the entry and the steps of a view; the entry of a trace; the timestamp of a state; a status */
    struct bytes third;
};

enum { FUNCTIONS = DIAGNOSE + 1, ROOM = 1 << 16, MARK = 0xA5 };

struct answer {
    uint32_t status;
    size_t written;
    uint8_t digest[32];
    struct avm_difference difference;
    struct avm_end end;
    struct avm_trouble trouble;
    uint8_t room[ROOM];
};

extern const char *const function_names[FUNCTIONS];

/* An answer in which nothing was written: each byte is MARK. */
void clear(struct answer *answer);

/* Makes a call, over an answer that was cleared, and with so much of its room. */
void make(const struct call *call, struct answer *answer, size_t room);

#endif
