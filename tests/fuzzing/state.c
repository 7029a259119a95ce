/* avm_c_state: before the first call stands the ledger, by its very bytes; after the last one stands what the block's digest is of;
   and each ledger on the way is read back and encoded by its bytes. */
#include "blocks.h"
#include "sha256.h"

#include <string.h>

static void look_at_ledger(struct bytes ledger) {
    static struct answer answer;
    static struct parts parts;
    static uint8_t room[EMPTY_BLOCK];
    struct bytes none = empty_block(ledger, room);
    demand(read_ledger(ledger, &parts) || parts.application_count == MOST_APPLICATIONS, "a ledger is read by the library alone");
    demand(replayed(ledger, none, &answer) == AVM_DONE, "a block without calls does not agree with a ledger that was left");
    demand(state_at(ledger, none, 0, &answer) == AVM_DONE, "a ledger that was left is none");
    demand(are_same(answered(&answer), ledger), "a ledger that was left is encoded otherwise");
}

static void look_at_longer(struct bytes ledger) {
    static struct answer answer;
    static uint8_t longer[ROOM + 1], room[EMPTY_BLOCK];
    memcpy(longer, ledger.at, ledger.length);
    longer[ledger.length] = 0;
    struct bytes other = bytes_of(longer, ledger.length + 1);
    demand(state_at(other, empty_block(other, room), 0, &answer) == AVM_NO_LEDGER, "a byte behind a ledger is not seen");
}

static void look_at_ends(struct bytes ledger, struct bytes block) {
    static struct answer answer;
    uint8_t digest[DIGEST];
    if (state_at(ledger, block, 0, &answer) == AVM_NO_ROOM) return;
    demand(answer.status == AVM_DONE && are_same(answered(&answer), ledger), "a ledger is encoded otherwise");
    demand(state_at(ledger, block, UINT64_MAX, &answer) == AVM_DONE, "a block that agrees leads to no ledger");
    sha256(answer.room, answer.written, digest);
    demand(memcmp(digest, block.at + block.length - 2 * DIGEST, DIGEST) == 0, "the ledger after has another digest");
}

int LLVMFuzzerTestOneInput(const uint8_t *at, size_t length) {
    static struct answer answer;
    static struct parts parts;
    struct pair pair = pair_of(at, length);
    struct bytes block;
    uint32_t status = state_at(pair.ledger, pair.block, pair.first, &answer);
    demand(status == AVM_DONE || status == AVM_NO_ROOM || (status >= AVM_NO_LEDGER && status <= AVM_WRONG_BASE),
           "state has another status");
    if (!settle(&pair, &block) || !read_block(block, &parts)) return 0;
    look_at_ends(pair.ledger, block);
    look_at_longer(pair.ledger);
    if (parts.entry_count == 0) return 0;
    uint64_t timestamp = parts.entries[pair.first % parts.entry_count].timestamp;
    status = state_at(pair.ledger, block, timestamp, &answer);
    if (status == AVM_NO_ROOM) return 0;
    demand(status == AVM_DONE, "there is no ledger at a timestamp");
    note(ENDINGS, 64 + (unsigned)parts.entry_count);
    look_at_ledger(answered(&answer));
    return 0;
}
