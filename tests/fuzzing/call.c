/* avm_c_call: over the ledger that a call of a block meets it ends as the block says, and answers the ledger after it; so does the block
   of this call alone, and an attempt over the ledger's items. A changed call, header or ledger is refused exactly where it is none. */
#include "made.h"
#include "sha256.h"

#include <string.h>

/* The block of this call alone has its outcome and the digest of the ledger after it. */
static void look_at_block(const struct made *it, struct bytes before, struct bytes after) {
    static struct answer answer;
    static struct parts parts;
    static uint8_t list[LONGEST_BLOCK];
    uint8_t digest[DIGEST], count[] = {0, 0, 0, 1};
    memcpy(list, count, sizeof count);
    memcpy(list + sizeof count, it->call.at, it->call.length);
    uint32_t status = proposed(before, it->header, bytes_of(list, sizeof count + it->call.length), &answer);
    if (status == AVM_NO_ROOM) return;
    demand(status == AVM_DONE && read_block(answered(&answer), &parts) && parts.entry_count == 1, "a call makes no block of one");
    const struct entry *entry = &parts.entries[0];
    struct bytes outcome = bytes_of(answer.room + entry->outcome, entry->end - entry->outcome);
    demand(are_same(outcome, it->outcome), "the block of a call has another outcome");
    sha256(after.at, after.length, digest);
    demand(memcmp(digest, answer.room + parts.after, DIGEST) == 0, "the block of a call leads to another ledger");
}

static void look_at_attempt(const struct made *it, struct bytes before, struct bytes after, const struct avm_end *end) {
    static struct answer answer;
    static struct table ledger, known, writes, wanted;
    if (!table_of(before, &ledger) || !look_up(it, &ledger, &known, &answer)) return;
    demand(memcmp(&answer.end, end, sizeof *end) == 0, "an attempt ends otherwise than the call");
    demand(read_items(answered(&answer), &writes), "what is written is no items");
    if (!put_writes(&ledger, &writes) || !table_of(after, &wanted)) return;
    demand(are_same_tables(&ledger, &wanted), "what an attempt writes does not lead to the ledger after the call");
}

/* A changed call is one exactly where nothing is wrong with it. */
static void look_at_changed(const struct made *it, struct bytes ledger, uint32_t chosen) {
    static struct answer answer, found;
    static uint8_t changed[LONGEST_BLOCK];
    struct bytes call = bytes_of(changed, chosen % 8 ? it->call.length : chosen / 8 % it->call.length);
    memcpy(changed, it->call.at, it->call.length);
    if (chosen % 8) changed[chosen / 64 % call.length] ^= (uint8_t)(1u << chosen / 8 % 8);
    uint32_t status = called_on(ledger, it->header, call, &answer), told = diagnosed(AVM_NO_CALL, call, &found);
    demand(status == AVM_DONE || status == AVM_NO_ROOM || status == AVM_NO_CALL, "a changed call has another status");
    demand((status == AVM_NO_CALL) == (told == AVM_NO_CALL), "a changed call is diagnosed otherwise");
    demand(told == AVM_DONE || answer.end.number == found.trouble.number, "a changed call has another fault");
    demand(status != AVM_NO_CALL || is_call_fault(answer.end.number), "a call has no such fault");
    if (status == AVM_NO_CALL) note(NAMES, 4096 + answer.end.number);
}

static void look_at_others(const struct made *it, struct bytes ledger, uint32_t chosen) {
    static struct answer answer;
    static uint8_t header[2 * HEADER];
    size_t length = chosen % sizeof header;
    memcpy(header, it->header.at, HEADER);
    uint32_t status = called_on(ledger, bytes_of(header, length), it->call, &answer);
    demand((status == AVM_NO_HEADER) == (length != HEADER), "a header is not of 40 bytes");
    /* The ledger is read first. */
    ledger.length--;
    demand(called_on(ledger, bytes_of(header, 1), it->call, &answer) == AVM_NO_LEDGER, "a ledger that is cut short is not seen");
    demand(says_nothing(&answer.end), "a call that is not made has an end");
}

static void look_at_entry(const struct pair *pair, struct bytes block, const struct parts *parts, size_t number, uint32_t chosen) {
    static struct answer before, after, answer;
    struct made it;
    if (!make_entry(pair->ledger, block, parts, number, &it, &before, &after)) return;
    uint32_t status = called_on(answered(&before), it.header, it.call, &answer);
    demand(status == AVM_DONE, "a call of a block is not made");
    demand(ends_as(&answer.end, it.outcome), "a call ends otherwise than in the block");
    demand(are_same(answered(&answer), answered(&after)), "a call leads to another ledger than in the block");
    look_at_block(&it, answered(&before), answered(&after));
    look_at_attempt(&it, answered(&before), answered(&after), &answer.end);
    look_at_changed(&it, answered(&before), chosen);
    look_at_others(&it, answered(&before), chosen);
}

int LLVMFuzzerTestOneInput(const uint8_t *at, size_t length) {
    static struct parts parts;
    static struct answer answer;
    static const uint8_t header[HEADER];
    struct pair pair = pair_of(at, length);
    struct bytes block;
    /* The bytes as they are: only a block's entries are calls. */
    uint32_t status = called_on(pair.ledger, bytes_of(header, HEADER), pair.block, &answer);
    demand(status == AVM_NO_LEDGER || status == AVM_NO_CALL || status == AVM_DONE || status == AVM_NO_ROOM, "call has another status");
    if (!settle(&pair, &block) || !read_block(block, &parts) || parts.entry_count == 0) return 0;
    /* In a block of format 1 the profile is 2, and here it is 3. */
    if (block.at[4] == 2) look_at_entry(&pair, block, &parts, pair.first % parts.entry_count, hash_of(at, length) ^ pair.second);
    return 0;
}
