/* avm_c_apply: its verdict is that of avm_c_replay, with the same difference, and the ledger that it answers is the one whose digest
   avm_c_replay gives and that avm_c_state gives behind all calls; of a block that agrees, and of one that says another outcome or has
   another digest. */
#include "blocks.h"
#include "sha256.h"

#include <string.h>

static uint32_t applied(struct bytes ledger, struct bytes block, struct answer *answer) {
    struct call call = {APPLY, ledger, block, 0, 0, {NULL, 0}};
    return called(call, answer);
}

static void look_at_ledger(struct bytes ledger, struct bytes block, struct bytes after, const uint8_t *wanted) {
    static struct answer answer;
    uint8_t digest[DIGEST];
    sha256(after.at, after.length, digest);
    demand(memcmp(digest, wanted, DIGEST) == 0, "the ledger after has another digest than replay gives");
    demand(state_at(ledger, block, UINT64_MAX, &answer) == AVM_DONE && are_same(answered(&answer), after), "state gives another ledger");
}

/* Gives the verdict. */
static uint32_t look_at(struct bytes ledger, struct bytes block) {
    static struct answer replay, apply;
    uint32_t wanted = replayed(ledger, block, &replay), status = applied(ledger, block, &apply);
    if (status == AVM_NO_ROOM) return demand(wanted == AVM_DONE, "a ledger after a block that does not agree"), status;
    demand(status == wanted, "apply gives another verdict than replay");
    bool is_same = memcmp(&apply.difference, &replay.difference, sizeof apply.difference) == 0;
    demand(status != AVM_WRONG_OUTCOME || is_same, "apply gives another difference than replay");
    if (status == AVM_DONE) look_at_ledger(ledger, block, answered(&apply), replay.digest);
    return status;
}

static void look_at_change(struct bytes ledger, struct bytes block, uint8_t *byte, uint8_t bit, uint32_t wanted, const char *what) {
    *byte ^= bit;
    seal(block);
    demand(look_at(ledger, block) == wanted, what);
    *byte ^= bit;
    seal(block);
}

int LLVMFuzzerTestOneInput(const uint8_t *at, size_t length) {
    static struct parts parts;
    struct pair pair = pair_of(at, length);
    struct bytes block;
    look_at(pair.ledger, pair.block);
    if (!settle(&pair, &block) || !read_block(block, &parts)) return 0;
    uint32_t status = look_at(pair.ledger, block);
    demand(status == AVM_DONE || status == AVM_NO_ROOM, "a block that agrees is not applied");
    size_t place = hash_of(at, length) % DIGEST;
    look_at_change(pair.ledger, block, block.at + parts.base + place, 1, AVM_WRONG_BASE, "another base is not seen");
    look_at_change(pair.ledger, block, block.at + parts.after + place, 1, AVM_WRONG_STATE, "another digest after is not seen");
    if (parts.entry_count == 0) return 0;
    /* An approval for a rejection, and the other way round. */
    uint8_t *outcome = block.at + parts.entries[pair.first % parts.entry_count].outcome;
    if (*outcome <= AVM_REJECTED) look_at_change(pair.ledger, block, outcome, 1, AVM_WRONG_OUTCOME, "a wrong outcome is not seen");
    return 0;
}
