/* Ledgers and blocks, read by the formats of docs/MACHINE.md ("Bytes", "Blocks") apart from the library. */
#ifndef BLOCKS_H
#define BLOCKS_H

#include "fuzzing.h"

enum {
    MOST_FIELDS = 512,
    MOST_ENTRIES = 64,
    MOST_APPLICATIONS = 64,
    DIGEST = 32,
    LONGEST_BLOCK = 1 << 17,
    PROFILE = 3,
    CREATES = 0,
    CLEARS = 3,
};

/* A byte string behind its length of one byte or two, and whether it is a program. */
struct field {
    size_t place, size, length;
    bool is_program;
};

/* How bytes end that were read: inside a field, or with more behind the last field. */
struct ends {
    bool is_short, has_rest;
};

struct application {
    uint64_t id;
    struct bytes approval, clear;
};

struct entry {
    size_t begin, end, outcome;
    uint64_t timestamp, application;
    uint8_t completion;
    struct bytes approval, clear;
};

/* What was read, and where its byte strings stand. */
struct parts {
    struct field fields[MOST_FIELDS];
    size_t field_count;
    struct application applications[MOST_APPLICATIONS];
    size_t application_count;
    size_t base, count_place, after;
    struct entry entries[MOST_ENTRIES];
    size_t entry_count;
    struct ends ends;
};

/* Calls of a list that are whole, and the bytes from the first on that is none. */
struct list {
    uint64_t count;
    struct bytes calls[MOST_ENTRIES];
    size_t whole;
    struct bytes rest;
};

/* Whether all the bytes are a ledger, or a block, by its form. What is beyond the room of `parts` is none. */
bool read_ledger(struct bytes bytes, struct parts *parts);
bool read_block(struct bytes bytes, struct parts *parts);

/* Reads a list of calls, by their form. False where the count is cut short, or more than there is room for. */
bool read_list(struct bytes bytes, struct list *list);

/* The calls of a block that was read as a list, into room for as many bytes as it has. */
struct bytes list_of(struct bytes block, const struct parts *parts, uint8_t *room);

/* A ledger and a block, and what an input chooses besides. */
struct pair {
    struct bytes ledger, block;
    uint8_t first, second;
};

/* What an input is: four bytes for the ledger's length, two numbers, the ledger and the block. */
enum { FRONT = 6 };
struct pair pair_of(const uint8_t *at, size_t length);

/* Writes the digest of all before it to the last bytes of a block. */
void seal(struct bytes block);

/* A copy of the block in which the digest before is that of the ledger, and its own digest is right. False where the block is none. */
bool rebase(const struct pair *pair, struct bytes *block);

/* A copy of the block in which the digest before is that of the ledger, every entry says how its call ends, and the digests
   after are right: what replays of the copy say is put into it, and that has to lead to a block that agrees. Gives whether it
   did; it does not where the ledger or the block is none. */
bool settle(const struct pair *pair, struct bytes *block);

/* The bytes of an outcome, at most five; gives how many they are. The entry is not looked at. */
size_t encode_outcome(const struct avm_difference *found, uint8_t *to);

/* The block without entries over a ledger, into room for as many bytes as it has. */
enum { EMPTY_BLOCK = 4 + 2 + DIGEST + 5 * 8 + 4 + DIGEST + DIGEST };
struct bytes empty_block(struct bytes ledger, uint8_t *room);

/* The answers to a ledger and a block. */
uint32_t replayed(struct bytes ledger, struct bytes block, struct answer *answer);
uint32_t state_at(struct bytes ledger, struct bytes block, uint64_t timestamp, struct answer *answer);
uint32_t viewed(struct bytes ledger, struct bytes block, uint64_t entry, uint64_t steps, struct answer *answer);

#endif
