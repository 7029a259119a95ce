#include "items.h"

#include "reader.h"

#include <string.h>

enum { ID = 8, ACCOUNT = 32, MOST_IN_COUNTS = 64 };

static struct parts scratch;

const struct item *find(const struct table *table, struct bytes name) {
    for (size_t i = 0; i < table->count; i++) {
        if (are_same(table->at[i].name, name)) return &table->at[i];
    }
    return NULL;
}

bool is_absent(struct item it) {
    return it.name.at[0] != NEXT_ID && it.value.at[0] == 0;
}

/* A copy of bytes in the table's room; of no bytes where there is none. */
static struct bytes kept(struct table *table, struct bytes bytes) {
    if (bytes.length > ITEMS_ROOM - table->used) return bytes_of("", 0);
    uint8_t *at = table->room + table->used;
    memcpy(at, bytes.at, bytes.length);
    table->used += bytes.length;
    return bytes_of(at, bytes.length);
}

bool put(struct table *table, struct bytes name, struct bytes value) {
    struct item *it = (struct item *)find(table, name);
    if (!it) {
        if (table->count == MOST_ITEMS) return false;
        it = &table->at[table->count++];
        it->name = kept(table, name);
    }
    it->value = kept(table, value);
    return it->name.length > 0 && it->value.length > 0;
}

bool put_all(struct table *table, const struct table *others) {
    for (size_t i = 0; i < others->count; i++) {
        if (!put(table, others->at[i].name, others->at[i].value)) return false;
    }
    return true;
}

void drop(struct table *table, struct bytes name) {
    struct item *it = (struct item *)find(table, name);
    if (it) *it = table->at[--table->count];
}

static void drop_application(struct table *table, const uint8_t *id) {
    for (size_t i = table->count; i-- > 0;) {
        const uint8_t *name = table->at[i].name.at;
        if ((name[0] == COUNTS || name[0] == KEY) && memcmp(name + 1, id, ID) == 0) table->at[i] = table->at[--table->count];
    }
}

bool put_writes(struct table *table, const struct table *writes) {
    for (size_t i = 0; i < writes->count; i++) {
        struct item it = writes->at[i];
        if (!is_absent(it)) {
            if (!put(table, it.name, it.value)) return false;
            continue;
        }
        drop(table, it.name);
        if (it.name.at[0] == ROW) drop_application(table, it.name.at + 1);
    }
    return true;
}

bool are_same_tables(const struct table *one, const struct table *other) {
    for (size_t i = 0; i < one->count; i++) {
        const struct item *it = find(other, one->at[i].name);
        if (!it || !are_same(it->value, one->at[i].value)) return false;
    }
    return one->count == other->count;
}

struct bytes encode_items(const struct table *table, uint8_t *room) {
    size_t length = 4;
    for (size_t i = 0; i < 4; i++) room[i] = (uint8_t)(table->count >> 8 * (3 - i));
    for (size_t i = 0; i < table->count; i++) {
        const struct item *it = &table->at[i];
        if (length + it->name.length + it->value.length > ITEMS_ROOM) return bytes_of(room, 0);
        memcpy(room + length, it->name.at, it->name.length);
        memcpy(room + length + it->name.length, it->value.at, it->value.length);
        length += it->name.length + it->value.length;
    }
    return bytes_of(room, length);
}

/* ---- reading */

/* The bytes between a place and where the reader stands. */
static struct bytes since(const struct reader *reader, size_t begin) {
    return bytes_of(reader->bytes.at + begin, reader->fails ? 0 : reader->place - begin);
}

static struct bytes read_name(struct reader *reader) {
    size_t begin = reader->place;
    uint64_t kind = read_number(reader, 1);
    if (kind >= ITEM_KINDS) reader->fails = true;
    if (kind == LOCAL_STATE) take(reader, ACCOUNT);
    if (kind != NEXT_ID) take(reader, ID);
    if (kind == KEY) read_key(reader);
    return since(reader, begin);
}

static void read_present(struct reader *reader, uint8_t kind) {
    struct application row;
    uint64_t uints;
    switch (kind) {
    case ROW: read_row(reader, &row); break;
    case COUNTS:
        uints = read_number(reader, 1);
        if (uints + read_number(reader, 1) > MOST_IN_COUNTS) reader->fails = true;
        break;
    case KEY: read_value(reader); break;
    default: read_state(reader, MOST_LOCAL);
    }
}

static struct bytes read_value_of(struct reader *reader, struct bytes name) {
    size_t begin = reader->place;
    if (reader->fails) return name;
    if (name.at[0] == NEXT_ID) {
        if (read_number(reader, ID) == 0) reader->fails = true;
        return since(reader, begin);
    }
    uint64_t present = read_number(reader, 1);
    if (present > 1) reader->fails = true;
    if (present == 1) read_present(reader, name.at[0]);
    return since(reader, begin);
}

bool read_items(struct bytes bytes, struct table *table) {
    struct reader reader = reader_of(bytes, &scratch);
    table->count = table->used = 0;
    for (uint64_t count = read_number(&reader, 4); count > 0 && !reader.fails; count--) {
        struct bytes name = read_name(&reader), value = read_value_of(&reader, name);
        if (!reader.fails && (find(table, name) || !put(table, name, value))) reader.fails = true;
    }
    table->ends = ends_of(&reader);
    return is_read(&reader);
}

bool is_item(struct bytes bytes) {
    struct reader reader = reader_of(bytes, &scratch);
    read_name(&reader);
    return is_read(&reader);
}

/* Puts the item of this kind, whose name goes on so, with a value that is there. */
static void put_present(struct reader *reader, struct table *table, uint8_t kind, struct bytes id, struct bytes key, struct bytes value) {
    static uint8_t name[1 + ACCOUNT + ID + 1 + MOST_KEY], encoded[1 << 16];
    if (reader->fails || value.length >= sizeof encoded) {
        reader->fails = true;
        return;
    }
    name[0] = kind;
    memcpy(name + 1, id.at, id.length);
    memcpy(name + 1 + id.length, key.at, key.length);
    encoded[0] = 1;
    memcpy(encoded + 1, value.at, value.length);
    if (!put(table, bytes_of(name, 1 + id.length + key.length), bytes_of(encoded, 1 + value.length))) reader->fails = true;
}

/* The global state of an application: its keys, and how many values there are of each kind. */
static void put_global_state(struct reader *reader, struct table *table, struct bytes id) {
    uint8_t counts[2] = {0, 0};
    for (uint64_t left = read_number(reader, 1); left > 0 && !reader->fails; left--) {
        size_t begin = reader->place;
        read_key(reader);
        struct bytes key = since(reader, begin);
        begin = reader->place;
        read_value(reader);
        struct bytes value = since(reader, begin);
        if (reader->fails) return;
        counts[value.at[0] - 1]++;
        put_present(reader, table, KEY, id, key, value);
    }
    put_present(reader, table, COUNTS, id, bytes_of("", 0), bytes_of(counts, 2));
}

bool table_of(struct bytes ledger, struct table *table) {
    struct reader reader = reader_of(ledger, &scratch);
    struct bytes none = bytes_of("", 0);
    struct application row;
    table->count = table->used = 0;
    static const uint8_t next_id[] = {NEXT_ID};
    if (!put(table, bytes_of(next_id, 1), bytes_of(take(&reader, ID), ID))) return false;
    for (uint64_t left = read_number(&reader, 4); left > 0 && !reader.fails; left--) {
        struct bytes id = bytes_of(take(&reader, ID), ID);
        size_t begin = reader.place;
        read_row(&reader, &row);
        put_present(&reader, table, ROW, id, none, since(&reader, begin));
        put_global_state(&reader, table, id);
    }
    for (uint64_t left = read_number(&reader, 4); left > 0 && !reader.fails; left--) {
        struct bytes name = bytes_of(take(&reader, ACCOUNT + ID), ACCOUNT + ID);
        size_t begin = reader.place;
        read_state(&reader, MOST_LOCAL);
        put_present(&reader, table, LOCAL_STATE, name, none, since(&reader, begin));
    }
    return is_read(&reader);
}
