#include "made.h"

#include <string.h>

bool make_entry(struct bytes ledger, struct bytes block, const struct parts *parts, size_t number, struct made *it, struct answer *before,
                struct answer *after) {
    const struct entry *entry = &parts->entries[number];
    it->header = bytes_of(block.at + parts->base + DIGEST, HEADER);
    it->call = bytes_of(block.at + entry->begin + 8, entry->outcome - entry->begin - 8);
    it->outcome = bytes_of(block.at + entry->outcome, entry->end - entry->outcome);
    if (state_at(ledger, block, entry->timestamp - 1, before) != AVM_DONE) return false;
    return state_at(ledger, block, entry->timestamp, after) == AVM_DONE;
}

bool ends_as(const struct avm_end *end, struct bytes outcome) {
    uint8_t encoded[8];
    struct avm_difference found = {0, end->ending, end->number, end->place};
    demand(end->ending <= AVM_CLEARED_FAULTED, "an ending has no such number");
    return are_same(bytes_of(encoded, encode_outcome(&found, encoded)), outcome);
}

bool is_call_fault(uint32_t number) {
    return (number >= AVM_CALL_FIELD && number <= AVM_CALL_REST) || (number >= AVM_CALL_ACCOUNTS && number <= AVM_CALL_NOTE);
}

uint32_t attempted(struct bytes header, struct bytes call, struct bytes known, struct answer *answer) {
    struct call asked = {ATTEMPT, header, call, 0, 0, known};
    return called(asked, answer);
}

uint32_t attempted_over(const struct made *it, const struct table *known, struct answer *answer) {
    static uint8_t room[ITEMS_ROOM];
    return attempted(it->header, it->call, encode_items(known, room), answer);
}

bool says_nothing(const struct avm_end *end) {
    return end->ending == 0 && end->number == 0 && end->place == 0;
}

bool look_up(const struct made *it, const struct table *ledger, struct table *known, struct answer *answer) {
    static const uint8_t absent[] = {0};
    known->count = known->used = 0;
    for (;;) {
        uint32_t status = attempted_over(it, known, answer);
        if (status == AVM_NO_ROOM) return false;
        demand(status == AVM_DONE || status == AVM_NEEDS, "a call of a block is not attempted");
        if (status == AVM_DONE) return true;
        struct bytes name = answered(answer);
        demand(says_nothing(&answer->end), "a call that has not ended has an end");
        demand(is_item(name), "what is asked for is no item");
        demand(!find(known, name), "an item is asked for that is known");
        demand(known->count < MOST_ASKED, "a call asks on and on");
        const struct item *found = find(ledger, name);
        demand(found || name.at[0] != NEXT_ID, "a ledger has no next id");
        note(ENDINGS, 256 + name.at[0] * 2u + (found != NULL));
        if (!put(known, name, found ? found->value : bytes_of(absent, 1))) return false;
    }
}

uint32_t called_on(struct bytes ledger, struct bytes header, struct bytes call, struct answer *answer) {
    struct call asked = {CALL, ledger, header, 0, 0, call};
    return called(asked, answer);
}

uint32_t proposed(struct bytes ledger, struct bytes header, struct bytes calls, struct answer *answer) {
    struct call asked = {PROPOSE, ledger, header, 0, 0, calls};
    return called(asked, answer);
}

uint32_t diagnosed(uint32_t status, struct bytes bytes, struct answer *answer) {
    struct call asked = {DIAGNOSE, bytes, bytes_of("", 0), 0, status, {NULL, 0}};
    return called(asked, answer);
}
