/* avm_c_propose: the block of the calls of a block has each of them in its order, by the timestamps 1, 2, 3 and so on, under the header
   and over the ledger that were given; it agrees; and each call ends as avm_c_call ends it over the ledger that the one before left.
   Changed calls are refused as they are read here, and each fault of a call is the one that is found in its bytes alone. */
#include "made.h"
#include "sha256.h"

#include <string.h>

/* What is proposed of. */
struct draft {
    struct bytes ledger, header, calls;
};

/* The entries are the calls of the list. */
static void look_at_entries(const struct draft *it, struct bytes block, const struct parts *parts) {
    static struct list list;
    demand(read_list(it->calls, &list) && list.whole == list.count && list.rest.length == 0, "what makes a block is no list of calls");
    demand(parts->entry_count == list.count, "a block has more calls or fewer");
    for (size_t i = 0; i < parts->entry_count; i++) {
        const struct entry *entry = &parts->entries[i];
        demand(entry->timestamp == i + 1, "a timestamp does not follow the one before");
        struct bytes call = bytes_of(block.at + entry->begin + 8, entry->outcome - entry->begin - 8);
        demand(are_same(call, list.calls[i]), "an entry has another call");
    }
}

static void look_at_front(const struct draft *it, struct bytes block, const struct parts *parts) {
    static struct answer answer;
    uint8_t digest[DIGEST];
    sha256(it->ledger.at, it->ledger.length, digest);
    demand(memcmp(block.at + parts->base, digest, DIGEST) == 0, "a block stands over another ledger");
    demand(are_same(bytes_of(block.at + parts->base + DIGEST, HEADER), it->header), "a block has another header");
    demand(replayed(it->ledger, block, &answer) == AVM_DONE, "a block that is proposed does not agree");
    demand(memcmp(block.at + parts->after, answer.digest, DIGEST) == 0, "a block leads to another digest");
}

/* The calls one after another by avm_c_call, as long as there is room for the ledgers. */
static void look_at_ends(const struct draft *it, struct bytes block, const struct parts *parts) {
    static struct answer answers[2];
    uint8_t digest[DIGEST];
    struct bytes ledger = it->ledger;
    for (size_t i = 0; i < parts->entry_count; i++) {
        const struct entry *entry = &parts->entries[i];
        struct answer *answer = &answers[i % 2];
        uint32_t status = called_on(ledger, it->header, bytes_of(block.at + entry->begin + 8, entry->outcome - entry->begin - 8), answer);
        if (status == AVM_NO_ROOM) return;
        demand(status == AVM_DONE, "a call of a block that is proposed is not made");
        demand(ends_as(&answer->end, bytes_of(block.at + entry->outcome, entry->end - entry->outcome)), "a call ends otherwise alone");
        note(ENDINGS, (unsigned)(i < 4 ? i : 4) * 8 + answer->end.ending);
        ledger = answered(answer);
    }
    sha256(ledger.at, ledger.length, digest);
    demand(memcmp(block.at + parts->after, digest, DIGEST) == 0, "the calls lead to another ledger than the block");
}

/* Where the list's form ends, or the fault that the bytes of one of its calls have alone. */
static void look_at_trouble(struct bytes calls, const struct avm_trouble *trouble) {
    static struct list list;
    static struct answer answer;
    demand(trouble->code == 0, "calls have a fault of code");
    note(NAMES, 4096 + trouble->number);
    if (!read_list(calls, &list)) return demand(calls.length >= 4 || trouble->number == AVM_CALL_TRUNCATED, "a count is not cut short");
    if (trouble->place == 0) {
        demand(trouble->number == AVM_CALL_REST, "no call has a fault that is no rest");
        demand(list.whole == list.count && list.rest.length > 0, "there is no rest");
        return;
    }
    demand(trouble->place <= list.count && trouble->place <= list.whole + 1, "a call that is not there has a fault");
    demand(is_call_fault(trouble->number), "a call has no such fault");
    struct bytes call = trouble->place <= list.whole ? list.calls[trouble->place - 1] : list.rest;
    demand(diagnosed(AVM_NO_CALL, call, &answer) == AVM_NO_CALL, "a call with a fault is one");
    demand(answer.trouble.number == trouble->number, "a call has another fault alone");
    for (size_t i = 0; i + 1 < trouble->place; i++) {
        demand(diagnosed(AVM_NO_CALL, list.calls[i], &answer) == AVM_DONE, "a call before the one with the fault has one");
    }
}

static void look_at(const struct draft *it) {
    static struct answer answer;
    static struct parts parts;
    uint32_t status = proposed(it->ledger, it->header, it->calls, &answer);
    if (status == AVM_NO_CALL) return look_at_trouble(it->calls, &answer.trouble);
    demand(status == AVM_DONE || status == AVM_NO_ROOM || status == AVM_NO_LEDGER, "propose has another status");
    if (status != AVM_DONE) return;
    struct bytes block = answered(&answer);
    demand(read_block(block, &parts) && block.at[4] == 2, "what is proposed is no block of format 2");
    look_at_entries(it, block, &parts);
    look_at_front(it, block, &parts);
    look_at_ends(it, block, &parts);
}

/* The list with one change: cut short, with a byte more, with another count, with a byte at a bound, or with a bit turned over. */
static struct bytes changed(struct bytes calls, uint32_t chosen) {
    static uint8_t room[LONGEST_BLOCK + 1];
    static const uint8_t bounds[] = {0, 1, 2, 3, 4, 5, 6, 17};
    size_t place = chosen / 16 % calls.length, length = calls.length;
    memcpy(room, calls.at, length);
    if (chosen % 16 < 3) length = place;
    else if (chosen % 16 == 3) room[length++] = 0;
    else if (chosen % 16 < 6) room[3] = (uint8_t)(room[3] + (chosen % 2 ? 1 : 255));
    else if (chosen % 16 < 10) room[place] = bounds[chosen >> 20 & 7];
    else room[place] ^= (uint8_t)(1u << chosen / 16 % 8);
    return bytes_of(room, length);
}

int LLVMFuzzerTestOneInput(const uint8_t *at, size_t length) {
    static struct parts parts;
    static struct answer answer;
    static uint8_t list[LONGEST_BLOCK], room[EMPTY_BLOCK];
    struct pair pair = pair_of(at, length);
    if (pair.block.length > LONGEST_BLOCK || !read_block(pair.block, &parts)) return 0;
    struct draft it = {pair.ledger, bytes_of(pair.block.at + parts.base + DIGEST, HEADER), list_of(pair.block, &parts, list)};
    uint32_t status = proposed(it.ledger, it.header, it.calls, &answer);
    bool is_ledger = replayed(it.ledger, empty_block(it.ledger, room), &answer) != AVM_NO_LEDGER;
    demand((status == AVM_NO_LEDGER) == !is_ledger, "a ledger is none, or one, for propose alone");
    if (!is_ledger) return 0;
    look_at(&it);
    it.calls = changed(it.calls, hash_of(at, length));
    look_at(&it);
    it.header.length--;
    demand(proposed(it.ledger, it.header, it.calls, &answer) == AVM_NO_HEADER, "a header that is cut short is not seen");
    return 0;
}
