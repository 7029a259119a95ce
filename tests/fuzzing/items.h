/* Items of ledgers with their values, read and encoded by docs/FORMATS.md ("Item", "Items") apart from the library. */
#ifndef ITEMS_H
#define ITEMS_H

#include "blocks.h"

enum { NEXT_ID, ROW, COUNTS, KEY, LOCAL_STATE, ITEM_KINDS };
enum { MOST_ITEMS = 1024, ITEMS_ROOM = 1 << 17 };

struct item {
    struct bytes name, value;
};

/* Items, each once, whose bytes stand in the room. */
struct table {
    struct item at[MOST_ITEMS];
    size_t count;
    uint8_t room[ITEMS_ROOM];
    size_t used;
    struct ends ends; /* of what `read_items` has read */
};

/* The items of a ledger; not where they are more than there is room for, or the bytes are none. */
bool table_of(struct bytes ledger, struct table *table);

/* Whether all the bytes are items with their values; else the table says how they end. What is beyond the room of the table is none. */
bool read_items(struct bytes bytes, struct table *table);

/* Whether all the bytes are one item. */
bool is_item(struct bytes bytes);

/* The items of a table, with their values, into room for ITEMS_ROOM bytes. */
struct bytes encode_items(const struct table *table, uint8_t *room);

/* An item of the table, or null. */
const struct item *find(const struct table *table, struct bytes name);

/* Gives an item a value, or each item of another table. False where there is no room. */
bool put(struct table *table, struct bytes name, struct bytes value);

bool put_all(struct table *table, const struct table *others);

void drop(struct table *table, struct bytes name);

/* Puts what a call writes: an item that is written as absent goes, and with an application its counts and its keys. */
bool put_writes(struct table *table, const struct table *writes);

/* Whether both have the same items with the same values. */
bool are_same_tables(const struct table *one, const struct table *other);

/* Whether the value says that the item is not there. */
bool is_absent(struct item it);

#endif
