/* A call of a block that agrees, and what it is made over. */
#ifndef MADE_H
#define MADE_H

#include "items.h"

enum { HEADER = 40, MOST_ASKED = 256 };

struct made {
    struct bytes header, call, outcome;
};

/* A call of a block that agrees, and the ledgers before and after it. False where a ledger is longer than the room for it. */
bool make_entry(struct bytes ledger, struct bytes block, const struct parts *parts, size_t number, struct made *it, struct answer *before,
                struct answer *after);

/* Whether an end is the one that the bytes of an outcome say. */
bool ends_as(const struct avm_end *end, struct bytes outcome);

/* Whether the number is that of a fault of one call. */
bool is_call_fault(uint32_t number);

bool says_nothing(const struct avm_end *end);

uint32_t attempted(struct bytes header, struct bytes call, struct bytes known, struct answer *answer);
uint32_t attempted_over(const struct made *it, const struct table *known, struct answer *answer);

/* Looks up each item that is asked for, until the call ends. False where the answer or the items are longer than their room. */
bool look_up(const struct made *it, const struct table *ledger, struct table *known, struct answer *answer);

/* The answers of avm_c_call, of avm_c_propose and of avm_c_diagnose. */
uint32_t called_on(struct bytes ledger, struct bytes header, struct bytes call, struct answer *answer);
uint32_t proposed(struct bytes ledger, struct bytes header, struct bytes calls, struct answer *answer);
uint32_t diagnosed(uint32_t status, struct bytes bytes, struct answer *answer);

#endif
