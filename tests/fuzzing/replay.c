/* avm_c_replay: under fresh digests a block has one verdict after another, each of which is put into the block, until it agrees;
   then any other digest, outcome or byte is seen. */
#include "blocks.h"
#include "programs.h"

#include <string.h>

static void note_fault(const struct avm_difference *found, const struct entry *entry) {
    static struct program program;
    /* The application's program is known where the call brings it. */
    if (found->number == 0 || entry->application != CREATES || !read_program(entry->approval, &program)) return;
    const struct instruction *at = instruction_at(&program, found->place);
    note(FAULTS, found->number * 128 + (at ? number_of(at->row) : 127));
}

/* The bytes as they are. */
static void look_at_given(const struct pair *pair) {
    static struct answer answer;
    static struct parts parts;
    uint32_t status = replayed(pair->ledger, pair->block, &answer);
    demand(status == AVM_DONE || (status >= AVM_NO_LEDGER && status <= AVM_WRONG_STATE), "replay has another status");
    if (status == AVM_NO_LEDGER) return;
    /* What has more parts than there is room for is left. */
    bool is_read = read_ledger(pair->ledger, &parts);
    demand(is_read || parts.application_count == MOST_APPLICATIONS, "a ledger is read by the library alone");
    if (status == AVM_NO_BLOCK) return;
    is_read = read_block(pair->block, &parts);
    demand(is_read || parts.entry_count == MOST_ENTRIES, "a block is read by the library alone");
}

static void look_at_bit(struct bytes ledger, struct bytes block, uint32_t chosen) {
    static struct answer answer;
    uint8_t *byte = &block.at[chosen / 8 % block.length], bit = (uint8_t)(1u << chosen % 8);
    *byte ^= bit;
    demand(replayed(ledger, block, &answer) == AVM_NO_BLOCK, "a flipped bit of a block is not seen");
    *byte ^= bit;
    block.length--;
    demand(replayed(ledger, block, &answer) == AVM_NO_BLOCK, "a block that is cut short is not seen");
}

static void look_at_digests(struct bytes ledger, struct bytes block, const struct parts *parts, uint32_t chosen) {
    static struct answer answer;
    size_t place = chosen % DIGEST;
    block.at[parts->base + place] ^= 1;
    seal(block);
    demand(replayed(ledger, block, &answer) == AVM_WRONG_BASE, "another digest of the ledger before is not seen");
    block.at[parts->base + place] ^= 1;
    block.at[parts->after + place] ^= 1;
    seal(block);
    demand(replayed(ledger, block, &answer) == AVM_WRONG_STATE, "another digest of the ledger after is not seen");
    block.at[parts->after + place] ^= 1;
    seal(block);
    demand(replayed(ledger, block, &answer) == AVM_DONE, "a block that agreed does not agree");
}

/* An approval for a rejection and the other way round; what is then found is what stood there. */
static void look_at_outcome(struct bytes ledger, struct bytes block, const struct parts *parts, uint32_t chosen) {
    static struct answer answer;
    if (parts->entry_count == 0) return;
    size_t number = chosen % parts->entry_count;
    uint8_t *outcome = &block.at[parts->entries[number].outcome], was = *outcome;
    if (was > AVM_REJECTED) return;
    *outcome = 1 - was;
    seal(block);
    demand(replayed(ledger, block, &answer) == AVM_WRONG_OUTCOME, "a wrong outcome is not seen");
    demand(answer.difference.entry == number + 1 && answer.difference.ending == was, "another outcome is found");
    *outcome = was;
    seal(block);
}

int LLVMFuzzerTestOneInput(const uint8_t *at, size_t length) {
    static struct parts parts, given;
    struct pair pair = pair_of(at, length);
    struct bytes block;
    look_at_given(&pair);
    if (!settle(&pair, &block) || !read_block(block, &parts)) return 0;
    uint32_t chosen = hash_of(at, length);
    for (size_t i = 0; i < parts.entry_count; i++) {
        const uint8_t *outcome = block.at + parts.entries[i].outcome;
        struct avm_difference found = {i + 1, outcome[0], outcome[1], (uint32_t)outcome[2] << 8 | outcome[3]};
        if (outcome[0] == AVM_FAULTED) note_fault(&found, &parts.entries[i]);
    }
    look_at_bit(pair.ledger, block, chosen);
    look_at_digests(pair.ledger, block, &parts, chosen);
    look_at_outcome(pair.ledger, block, &parts, chosen);
    if (read_ledger(pair.ledger, &given) && given.application_count > 0) note(ENDINGS, 40 + (unsigned)given.application_count);
    return 0;
}
