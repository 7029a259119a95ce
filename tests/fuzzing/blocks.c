#include "blocks.h"

#include "programs.h"
#include "reader.h"
#include "sha256.h"

#include <string.h>

enum { OUTCOME = 4 };

const uint8_t *take(struct reader *reader, size_t count) {
    static const uint8_t nothing[256];
    if (reader->fails || count > reader->bytes.length - reader->place) {
        reader->is_short = reader->is_short || !reader->fails;
        reader->fails = true;
        return nothing;
    }
    reader->place += count;
    return reader->bytes.at + reader->place - count;
}

uint64_t read_number(struct reader *reader, size_t size) {
    const uint8_t *at = take(reader, size);
    uint64_t value = 0;
    for (size_t i = 0; i < size; i++) value = value << 8 | at[i];
    return value;
}

struct bytes read_string(struct reader *reader, size_t size, bool is_program) {
    struct field field = {.place = reader->place, .size = size, .is_program = is_program};
    field.length = read_number(reader, size);
    if (reader->fails || field.length > reader->bytes.length - reader->place) {
        reader->is_short = reader->is_short || !reader->fails;
        reader->fails = true;
        return bytes_of(reader->bytes.at, 0);
    }
    if (reader->parts->field_count < MOST_FIELDS) reader->parts->fields[reader->parts->field_count++] = field;
    return bytes_of(take(reader, field.length), field.length);
}

/* Negative, 0 or positive, as one stands before, with or behind the other in the order of bytes. */
static int order_of(struct bytes one, struct bytes other) {
    size_t length = one.length < other.length ? one.length : other.length;
    int order = memcmp(one.at, other.at, length);
    return order ? order : (one.length > other.length) - (one.length < other.length);
}

void read_value(struct reader *reader) {
    struct bytes text = {0};
    uint64_t kind = read_number(reader, 1);
    if (kind == 1) read_number(reader, 8);
    else if (kind == 2) text = read_string(reader, 1, false);
    if (kind < 1 || kind > 2 || text.length > MOST_KEY) reader->fails = true;
}

struct bytes read_key(struct reader *reader) {
    struct bytes key = read_string(reader, 1, false);
    if (key.length > MOST_KEY) reader->fails = true;
    return key;
}

void read_state(struct reader *reader, uint64_t most) {
    struct bytes last = {0};
    uint64_t count = read_number(reader, 1);
    if (count > most) reader->fails = true;
    for (; count > 0 && !reader->fails; count--) {
        struct bytes key = read_key(reader);
        if (last.at && order_of(last, key) >= 0) reader->fails = true;
        last = key;
        read_value(reader);
    }
}

struct ends ends_of(const struct reader *reader) {
    struct ends ends = {reader->is_short, !reader->fails && reader->place < reader->bytes.length};
    return ends;
}

struct reader reader_of(struct bytes bytes, struct parts *parts) {
    struct reader reader = {bytes, 0, false, false, parts};
    parts->field_count = parts->application_count = parts->entry_count = 0;
    parts->ends = (struct ends){false, false};
    return reader;
}

bool is_read(const struct reader *reader) {
    return !reader->fails && reader->place == reader->bytes.length;
}

static struct bytes read_checked(struct reader *reader) {
    static struct program program;
    struct bytes code = read_string(reader, 2, true);
    if (!read_program(code, &program) || program.cost > MOST_COST) reader->fails = true;
    return code;
}

static void read_schema(struct reader *reader, uint64_t most) {
    uint64_t both = read_number(reader, 2);
    if ((both >> 8) + (both & 255) > most) reader->fails = true;
}

void read_row(struct reader *reader, struct application *it) {
    take(reader, 32);
    it->approval = read_checked(reader);
    it->clear = read_checked(reader);
    read_schema(reader, MOST_GLOBAL);
    read_schema(reader, MOST_LOCAL);
}

static struct application read_application(struct reader *reader, uint64_t last, uint64_t next) {
    struct application it = {.id = read_number(reader, 8)};
    if (it.id <= last || it.id >= next) reader->fails = true;
    read_row(reader, &it);
    read_state(reader, MOST_GLOBAL);
    return it;
}

/* Local states by rising account and application. */
static void read_local_states(struct reader *reader, uint64_t next) {
    struct bytes last = {0};
    for (uint64_t count = read_number(reader, 4); count > 0 && !reader->fails; count--) {
        struct bytes key = bytes_of(take(reader, 32), 32 + 8);
        uint64_t id = read_number(reader, 8);
        if (id < 1 || id >= next || (last.at && order_of(last, key) >= 0)) reader->fails = true;
        last = key;
        read_state(reader, MOST_LOCAL);
    }
}

bool read_ledger(struct bytes bytes, struct parts *parts) {
    struct reader reader = reader_of(bytes, parts);
    uint64_t next = read_number(&reader, 8), last = 0;
    if (next < 1) reader.fails = true;
    for (uint64_t count = read_number(&reader, 4); count > 0 && !reader.fails; count--) {
        struct application it = read_application(&reader, last, next);
        last = it.id;
        if (parts->application_count == MOST_APPLICATIONS) return false;
        parts->applications[parts->application_count++] = it;
    }
    read_local_states(&reader, next);
    parts->ends = ends_of(&reader);
    return is_read(&reader);
}

static void read_outcome(struct reader *reader) {
    uint64_t kind = read_number(reader, 1);
    if (kind == AVM_CLEARED_GONE) kind = read_number(reader, 1);
    if (kind == AVM_FAULTED) read_number(reader, 3);
    else if (kind == AVM_CALL_REFUSED) read_number(reader, 1);
    else if (kind > AVM_FAULTED) reader->fails = true;
}

static void read_call(struct reader *reader, struct entry *it) {
    take(reader, 32 + 3 * 8);
    read_string(reader, 2, false);
    take(reader, 32 + 32);
    it->application = read_number(reader, 8);
    it->completion = (uint8_t)read_number(reader, 1);
    for (uint64_t count = read_number(reader, 1); count > 0 && !reader->fails; count--) read_string(reader, 2, false);
    for (uint64_t count = read_number(reader, 1); count > 0 && !reader->fails; count--) take(reader, 32);
    for (uint64_t count = read_number(reader, 1); count > 0 && !reader->fails; count--) take(reader, 8);
    it->approval = read_string(reader, 2, true);
    it->clear = read_string(reader, 2, true);
    read_number(reader, 4);
}

static struct entry read_entry(struct reader *reader) {
    struct entry it = {.begin = reader->place};
    it.timestamp = read_number(reader, 8);
    read_call(reader, &it);
    it.outcome = reader->place;
    read_outcome(reader);
    it.end = reader->place;
    return it;
}

bool read_block(struct bytes bytes, struct parts *parts) {
    struct reader reader = reader_of(bytes, parts);
    if (memcmp(take(&reader, 4), "AVMB", 4)) reader.fails = true;
    uint64_t format = read_number(&reader, 1), last = 0;
    if (format == 2 ? read_number(&reader, 1) != PROFILE : format != 1) reader.fails = true;
    parts->base = reader.place;
    take(&reader, DIGEST + 5 * 8);
    parts->count_place = reader.place;
    for (uint64_t count = read_number(&reader, 4); count > 0 && !reader.fails; count--) {
        if (parts->entry_count == MOST_ENTRIES) return false;
        struct entry it = read_entry(&reader);
        if (it.timestamp <= last) reader.fails = true;
        last = it.timestamp;
        parts->entries[parts->entry_count++] = it;
    }
    parts->after = reader.place;
    take(&reader, 2 * DIGEST);
    parts->ends = ends_of(&reader);
    return is_read(&reader);
}

bool read_list(struct bytes bytes, struct list *list) {
    static struct parts scratch;
    struct reader reader = reader_of(bytes, &scratch);
    struct entry it;
    list->count = read_number(&reader, 4);
    if (reader.fails || list->count > MOST_ENTRIES) return false;
    for (list->whole = 0; list->whole <= list->count; list->whole++) {
        size_t begin = reader.place;
        list->rest = bytes_of(bytes.at + begin, bytes.length - begin);
        if (list->whole == list->count) return true;
        read_call(&reader, &it);
        if (reader.fails) return true;
        list->calls[list->whole] = bytes_of(bytes.at + begin, reader.place - begin);
    }
    return true;
}

struct bytes list_of(struct bytes block, const struct parts *parts, uint8_t *room) {
    size_t length = 4;
    memcpy(room, block.at + parts->count_place, length);
    for (size_t i = 0; i < parts->entry_count; i++) {
        const struct entry *it = &parts->entries[i];
        memcpy(room + length, block.at + it->begin + 8, it->outcome - it->begin - 8);
        length += it->outcome - it->begin - 8;
    }
    return bytes_of(room, length);
}

struct pair pair_of(const uint8_t *at, size_t length) {
    struct pair pair = {bytes_of("", 0), bytes_of("", 0), 0, 0};
    if (length < FRONT) return pair;
    size_t wanted = (size_t)at[0] << 24 | (size_t)at[1] << 16 | (size_t)at[2] << 8 | at[3], room = length - FRONT;
    pair.first = at[4];
    pair.second = at[5];
    pair.ledger = bytes_of(at + FRONT, wanted < room ? wanted : room);
    pair.block = bytes_of(at + FRONT + pair.ledger.length, room - pair.ledger.length);
    return pair;
}

void seal(struct bytes block) {
    sha256(block.at, block.length - DIGEST, block.at + block.length - DIGEST);
}

struct bytes empty_block(struct bytes ledger, uint8_t *room) {
    static const uint8_t front[] = {'A', 'V', 'M', 'B', 2, PROFILE};
    struct bytes block = {room, EMPTY_BLOCK};
    memset(room, 0, EMPTY_BLOCK);
    memcpy(room, front, sizeof front);
    sha256(ledger.at, ledger.length, room + sizeof front);
    sha256(ledger.at, ledger.length, room + EMPTY_BLOCK - 2 * DIGEST);
    seal(block);
    return block;
}

uint32_t replayed(struct bytes ledger, struct bytes block, struct answer *answer) {
    struct call call = {REPLAY, ledger, block, 0, 0, {NULL, 0}};
    return called(call, answer);
}

uint32_t state_at(struct bytes ledger, struct bytes block, uint64_t timestamp, struct answer *answer) {
    struct call call = {STATE, ledger, block, 0, timestamp, {NULL, 0}};
    return called(call, answer);
}

uint32_t viewed(struct bytes ledger, struct bytes block, uint64_t entry, uint64_t steps, struct answer *answer) {
    struct call call = {VIEW, ledger, block, entry, steps, {NULL, 0}};
    return called(call, answer);
}

/* ---- blocks that agree */

size_t encode_outcome(const struct avm_difference *found, uint8_t *to) {
    size_t length = 0;
    bool clears = found->ending >= AVM_CLEARED_GONE, faults = found->ending == AVM_FAULTED || found->ending == AVM_CLEARED_FAULTED;
    to[length++] = clears ? OUTCOME : (uint8_t)found->ending;
    if (clears) to[length++] = (uint8_t)(found->ending - AVM_CLEARED_GONE);
    if (faults || found->ending == AVM_CALL_REFUSED) to[length++] = (uint8_t)found->number;
    if (faults) {
        to[length++] = (uint8_t)(found->place >> 8);
        to[length++] = (uint8_t)found->place;
    }
    return length;
}

/* Puts the outcome that was found in the place of the entry's. */
static void put_outcome(struct bytes *block, const struct entry *entry, const struct avm_difference *found) {
    uint8_t encoded[8];
    size_t length = encode_outcome(found, encoded), old = entry->end - entry->outcome;
    demand(old != length || memcmp(block->at + entry->outcome, encoded, length), "an outcome is wrong, and found to be the same");
    memmove(block->at + entry->outcome + length, block->at + entry->end, block->length - entry->end);
    memcpy(block->at + entry->outcome, encoded, length);
    block->length = block->length + length - old;
}

static void look_at_difference(const struct avm_difference *found, size_t last, const struct parts *parts) {
    bool faults = found->ending == AVM_FAULTED || found->ending == AVM_CLEARED_FAULTED;
    demand(found->entry > last && found->entry <= parts->entry_count, "a wrong outcome is not of the first entry left");
    demand(found->ending <= AVM_CLEARED_FAULTED, "an ending has no such number");
    demand(faults || found->place == 0, "an ending that has no place has one");
    demand((faults || found->ending == AVM_CALL_REFUSED) == (found->number != 0), "an ending has a number that it should not");
    const struct entry *entry = &parts->entries[found->entry - 1];
    demand(found->ending < AVM_CLEARED_GONE || entry->completion == CLEARS, "only a clear state call clears");
    note(ENDINGS, (unsigned)(found->entry < 4 ? found->entry : 4) * 8 + found->ending);
}

/* Puts the digest of the ledger after; not where that is longer than the room for it. */
static bool put_digest_after(const struct pair *pair, struct bytes block) {
    static struct answer state;
    uint32_t status = state_at(pair->ledger, block, UINT64_MAX, &state);
    demand(status == AVM_DONE || status == AVM_NO_ROOM, "a block that is judged leads to no ledger");
    if (status == AVM_DONE) sha256(state.room, state.written, block.at + block.length - 2 * DIGEST);
    return status == AVM_DONE;
}

bool rebase(const struct pair *pair, struct bytes *block) {
    static uint8_t room[LONGEST_BLOCK + 8 * MOST_ENTRIES];
    static struct parts parts;
    if (pair->block.length > LONGEST_BLOCK || !read_block(pair->block, &parts)) return false;
    *block = bytes_of(room, pair->block.length);
    memcpy(room, pair->block.at, pair->block.length);
    sha256(pair->ledger.at, pair->ledger.length, room + parts.base);
    seal(*block);
    return true;
}

bool settle(const struct pair *pair, struct bytes *block) {
    static struct parts parts;
    static struct answer answer;
    struct bytes made;
    size_t last = 0;
    bool put = false;
    if (!rebase(pair, &made)) return false;
    for (;;) {
        seal(made);
        uint32_t status = replayed(pair->ledger, made, &answer);
        *block = made;
        if (status == AVM_DONE) {
            demand(memcmp(answer.digest, made.at + made.length - 2 * DIGEST, DIGEST) == 0, "the digest is not the block's");
            return true;
        }
        if (status == AVM_NO_LEDGER || status == AVM_NO_BLOCK) return demand(last == 0 && !put, "a block that was one is none"), false;
        if (status == AVM_WRONG_STATE) {
            demand(!put, "the digest of the ledger after is not that of its bytes");
            put = true;
            if (!put_digest_after(pair, made)) return false;
            continue;
        }
        demand(status == AVM_WRONG_OUTCOME && !put, "a verdict that this block cannot have");
        demand(read_block(made, &parts), "a block is read by the library alone");
        look_at_difference(&answer.difference, last, &parts);
        last = answer.difference.entry;
        put_outcome(&made, &parts.entries[last - 1], &answer.difference);
    }
}
