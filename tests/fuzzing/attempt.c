/* avm_c_attempt: a call of a block that agrees, over the items of the ledger that it meets, looked up as it asks for them. It ends as
   the block says, and its writes make the items of the ledger after it. It does the same over the items in another order and over
   all items of the ledger; without one that it asked for it asks for that. Changed items are refused exactly where they are none, and
   a changed call exactly where the block with it is none. */
#include "made.h"

#include <string.h>

enum { CHANGES = 4 };

/* The call ends as the entry says, and leads to the items of the ledger after it. */
static void look_at_end(const struct made *it, struct bytes after, const struct table *before, struct answer *answer) {
    static struct table table, writes, wanted;
    demand(ends_as(&answer->end, it->outcome), "a call ends otherwise than in the block");
    demand(read_items(answered(answer), &writes), "what is written is no items");
    note(ENDINGS, 320 + (writes.count < 31 ? (unsigned)writes.count : 31));
    table.count = table.used = 0;
    if (!put_all(&table, before) || !put_writes(&table, &writes) || !table_of(after, &wanted)) return;
    demand(are_same_tables(&table, &wanted), "what is written does not lead to the ledger after");
}

static void look_at_same(const struct made *it, const struct table *known, const struct answer *wanted, const char *what) {
    static struct answer found;
    attempted_over(it, known, &found);
    demand(memcmp(&found, wanted, sizeof found) == 0, what);
}

/* The known items from the last to the first; then all of the ledger's, with those that it lacks. */
static void look_at_others(const struct made *it, const struct table *ledger, const struct table *known, const struct answer *wanted) {
    static struct table other;
    other.count = other.used = 0;
    for (size_t i = known->count; i-- > 0;) {
        if (!put(&other, known->at[i].name, known->at[i].value)) return;
    }
    look_at_same(it, &other, wanted, "known items in another order lead to another end");
    if (put_all(&other, ledger)) look_at_same(it, &other, wanted, "items beyond those that are asked for lead to another end");
}

/* Without an item that was asked for, that one is asked for first: those that came before it are known. */
static void look_at_missing(const struct made *it, const struct table *known, uint32_t chosen) {
    static struct table fewer;
    static struct answer answer;
    if (known->count == 0) return;
    const struct item *missing = &known->at[chosen % known->count];
    fewer.count = fewer.used = 0;
    for (size_t i = 0; i < known->count; i++) {
        if (&known->at[i] != missing && !put(&fewer, known->at[i].name, known->at[i].value)) return;
    }
    demand(attempted_over(it, &fewer, &answer) == AVM_NEEDS, "a call ends without an item that it asked for");
    demand(are_same(answered(&answer), missing->name), "another item is asked for than the one that is missing");
}

/* The bytes of items with one change: cut short, with a byte more, with an entry once more, with a byte at a bound of some field, or
   with a bit turned over. */
static struct bytes changed_items(const struct table *known, struct bytes items, uint32_t chosen) {
    static uint8_t changed[2 * ITEMS_ROOM];
    static const uint8_t bounds[] = {0, 1, 2, 3, 16, 17, 64, 65};
    size_t place = chosen / 16 % items.length, length = items.length;
    memcpy(changed, items.at, length);
    if (chosen % 16 == 0) length = place;
    else if (chosen % 16 == 1) changed[length++] = 0;
    else if (chosen % 16 == 2 && known->count > 0) {
        const struct item *it = &known->at[place % known->count];
        memcpy(changed + length, it->name.at, it->name.length);
        memcpy(changed + length + it->name.length, it->value.at, it->value.length);
        length += it->name.length + it->value.length;
        changed[3]++;
    } else if (chosen % 16 < 8) changed[place] = bounds[chosen >> 20 & 7];
    else changed[place] ^= (uint8_t)(1u << chosen % 8);
    return bytes_of(changed, length);
}

static void look_at_items(const struct made *it, const struct table *known, uint32_t chosen) {
    static struct table table;
    static struct answer answer;
    static uint8_t room[ITEMS_ROOM];
    struct bytes items = encode_items(known, room);
    if (items.length == 0) return;
    for (int i = 0; i < CHANGES; i++, chosen = hash_of(&chosen, sizeof chosen)) {
        struct bytes given = changed_items(known, items, chosen);
        bool are_items = read_items(given, &table);
        uint32_t status = attempted(it->header, it->call, given, &answer);
        demand((status == AVM_NO_ITEMS) == !are_items, "items are read otherwise by the library");
        demand(status != AVM_NO_HEADER && status != AVM_NO_CALL, "changed items are no header, or no call");
        demand(status == AVM_DONE || says_nothing(&answer.end), "a call that has not ended has an end");
    }
}

/* A call with a bit turned over is one exactly where the block with it is one, in which it takes the same bytes. */
static void look_at_call(const struct made *it, struct bytes ledger, struct bytes block, size_t number, uint32_t chosen) {
    static struct parts parts;
    static struct answer answer;
    static uint8_t same[LONGEST_BLOCK + 8 * MOST_ENTRIES];
    struct bytes changed = bytes_of(same, block.length);
    size_t begin = (size_t)(it->call.at - block.at);
    memcpy(same, block.at, block.length);
    same[begin + chosen / 8 % it->call.length] ^= (uint8_t)(1u << chosen % 8);
    seal(changed);
    bool is_call = replayed(ledger, changed, &answer) != AVM_NO_BLOCK && read_block(changed, &parts);
    is_call = is_call && parts.entries[number].begin + 8 == begin && parts.entries[number].outcome == begin + it->call.length;
    uint32_t status = attempted(it->header, bytes_of(same + begin, it->call.length), bytes_of("\0\0\0", 4), &answer);
    demand((status == AVM_NO_CALL) == !is_call, "a changed call is read otherwise than in a block");
    bool is_fault = is_call_fault(answer.end.number);
    demand(is_fault == (status == AVM_NO_CALL), "a call has a fault, or none, that it should not");
    if (is_fault) note(NAMES, 4096 + answer.end.number);
}

static void look_at_header(const struct made *it, uint32_t chosen) {
    static struct answer answer;
    static uint8_t longer[2 * HEADER];
    size_t length = chosen % sizeof longer;
    memcpy(longer, it->header.at, HEADER);
    uint32_t status = attempted(bytes_of(longer, length), it->call, bytes_of("", 0), &answer);
    demand(status == (length == HEADER ? AVM_NO_ITEMS : AVM_NO_HEADER), "a header is not of 40 bytes, or no bytes are items");
}

static void look_at_entry(const struct pair *pair, struct bytes block, const struct parts *parts, size_t number, uint32_t chosen) {
    static struct answer before, after, answer;
    static struct table ledger, known;
    struct made it;
    if (!make_entry(pair->ledger, block, parts, number, &it, &before, &after)) return;
    if (!table_of(answered(&before), &ledger) || !look_up(&it, &ledger, &known, &answer)) return;
    note(ENDINGS, 288 + (known.count < 31 ? (unsigned)known.count : 31));
    look_at_end(&it, answered(&after), &ledger, &answer);
    look_at_others(&it, &ledger, &known, &answer);
    look_at_missing(&it, &known, chosen);
    look_at_items(&it, &known, chosen);
    look_at_call(&it, pair->ledger, block, number, chosen);
    look_at_header(&it, chosen);
}

int LLVMFuzzerTestOneInput(const uint8_t *at, size_t length) {
    static struct parts parts;
    static struct table table;
    static struct answer answer;
    static const uint8_t header[HEADER];
    struct pair pair = pair_of(at, length);
    struct bytes block;
    /* The bytes as they are: only a block's entries are calls. */
    uint32_t status = attempted(bytes_of(header, HEADER), pair.block, pair.ledger, &answer);
    demand(status == AVM_NO_CALL || (status == AVM_NO_ITEMS) == !read_items(pair.ledger, &table), "attempt has another status");
    if (!settle(&pair, &block) || !read_block(block, &parts) || parts.entry_count == 0) return 0;
    /* In a block of format 1 the profile is 2, and here it is 3. */
    if (block.at[4] != 2) return 0;
    look_at_entry(&pair, block, &parts, pair.first % parts.entry_count, hash_of(at, length) ^ pair.second);
    return 0;
}
