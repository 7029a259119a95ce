/* Changes of inputs that are a ledger and a block: a byte string and its length, the entries, the fields of a call. Digests and
   outcomes are left to `settle`. */
#include "blocks.h"
#include "programs.h"

#include <string.h>

enum { MOST_INPUT = 1 << 16, COMPLETIONS = 6, SENDER = 8, FIXED = 8 + 32 + 24 };

size_t LLVMFuzzerMutate(uint8_t *at, size_t length, size_t room);

/* An input that is taken apart into ledger and block, each with room to grow. */
static struct {
    uint8_t ledger[MOST_INPUT], block[MOST_INPUT];
    size_t ledger_length, block_length;
    struct parts ledger_parts, block_parts;
} now;

static uint32_t next_random(uint32_t *seed) {
    *seed = *seed * 1664525u + 1013904223u;
    return *seed >> 8;
}

static void write_number(uint8_t *at, size_t size, uint64_t value) {
    for (size_t i = 0; i < size; i++) at[i] = (uint8_t)(value >> 8 * (size - 1 - i));
}

static size_t changed(uint8_t *at, const struct field *field, size_t length, size_t room, uint32_t *seed) {
    if (field->is_program && next_random(seed) % 16) return mutate_program(at, length, room, next_random(seed));
    if (length == 0 && field->is_program) return 0;
    return LLVMFuzzerMutate(at, length, room);
}

/* Changes one byte string of the bytes; gives their length. */
static size_t change_string(uint8_t *bytes, size_t length, const struct parts *parts, uint32_t *seed) {
    static uint8_t text[MOST_BYTES];
    if (parts->field_count == 0) return length;
    const struct field *field = &parts->fields[next_random(seed) % parts->field_count];
    size_t room = field->size == 1 ? 70 : sizeof text, begin = field->place + field->size;
    if (field->length > sizeof text || length + room > MOST_INPUT) return length;
    memcpy(text, bytes + begin, field->length);
    size_t made = changed(text, field, field->length, room, seed);
    memmove(bytes + begin + made, bytes + begin + field->length, length - begin - field->length);
    memcpy(bytes + begin, text, made);
    write_number(bytes + field->place, field->size, made);
    return length + made - field->length;
}

/* The timestamps of the entries rise by one, and their number is right. */
static void number_entries(size_t count, size_t old) {
    write_number(now.block + now.block_parts.count_place, 4, old + count);
    if (!read_block(bytes_of(now.block, now.block_length), &now.block_parts)) return;
    for (size_t i = 0; i < now.block_parts.entry_count; i++) write_number(now.block + now.block_parts.entries[i].begin, 8, i + 1);
}

static void copy_entry(uint32_t *seed) {
    struct parts *parts = &now.block_parts;
    const struct entry *it = &parts->entries[next_random(seed) % parts->entry_count];
    const struct entry *at = &parts->entries[next_random(seed) % parts->entry_count];
    static uint8_t copy[MOST_INPUT];
    size_t length = it->end - it->begin;
    if (parts->entry_count == MOST_ENTRIES || now.block_length + length > MOST_INPUT) return;
    memcpy(copy, now.block + it->begin, length);
    memmove(now.block + at->end + length, now.block + at->end, now.block_length - at->end);
    memcpy(now.block + at->end, copy, length);
    now.block_length += length;
    number_entries(1, parts->entry_count);
}

static void remove_entry(uint32_t *seed) {
    struct parts *parts = &now.block_parts;
    const struct entry *it = &parts->entries[next_random(seed) % parts->entry_count];
    if (parts->entry_count == 1) return;
    memmove(now.block + it->begin, now.block + it->end, now.block_length - it->end);
    now.block_length -= it->end - it->begin;
    number_entries(parts->entry_count - 1, 0);
}

static void change_call(uint32_t *seed) {
    struct parts *parts = &now.block_parts;
    const struct entry *it = &parts->entries[next_random(seed) % parts->entry_count];
    const struct entry *other = &parts->entries[next_random(seed) % parts->entry_count];
    uint8_t *call = now.block + it->begin;
    size_t note_length = (size_t)call[FIXED] << 8 | call[FIXED + 1], application = FIXED + 2 + note_length + 64;
    switch (next_random(seed) % 4) {
    case 0: call[application + 8] = (uint8_t)(next_random(seed) % COMPLETIONS); break;
    case 1: write_number(call + application, 8, next_random(seed) % 4); break;
    case 2: memmove(call + SENDER, now.block + other->begin + SENDER, 32); break;
    default: call[SENDER + next_random(seed) % (application + 8 - SENDER)] ^= (uint8_t)(1u << next_random(seed) % 8);
    }
}

static void change_block(uint32_t *seed) {
    if (now.block_parts.entry_count == 0) return;
    switch (next_random(seed) % 8) {
    case 0: copy_entry(seed); break;
    case 1: remove_entry(seed); break;
    case 2: case 3: change_call(seed); break;
    default: now.block_length = change_string(now.block, now.block_length, &now.block_parts, seed);
    }
}

static bool take_apart(const uint8_t *data, size_t size) {
    struct pair pair = pair_of(data, size);
    if (size > MOST_INPUT || !read_ledger(pair.ledger, &now.ledger_parts) || !read_block(pair.block, &now.block_parts)) return false;
    memcpy(now.ledger, pair.ledger.at, now.ledger_length = pair.ledger.length);
    memcpy(now.block, pair.block.at, now.block_length = pair.block.length);
    return true;
}

static size_t put_together(uint8_t *data, size_t room) {
    size_t length = FRONT + now.ledger_length + now.block_length;
    if (length > room) return 0;
    write_number(data, 4, now.ledger_length);
    memcpy(data + FRONT, now.ledger, now.ledger_length);
    memcpy(data + FRONT + now.ledger_length, now.block, now.block_length);
    return length;
}

size_t LLVMFuzzerCustomMutator(uint8_t *data, size_t size, size_t room, unsigned int start) {
    uint32_t seed = start;
    if (next_random(&seed) % 16 == 0 || !take_apart(data, size)) return LLVMFuzzerMutate(data, size, room);
    if (next_random(&seed) % 4 == 0) data[4] = (uint8_t)next_random(&seed);
    if (next_random(&seed) % 4 == 0) data[5] = (uint8_t)next_random(&seed);
    for (uint32_t times = 1 + next_random(&seed) % 3; times > 0; times--) {
        if (next_random(&seed) % 3 > 0) change_block(&seed);
        else now.ledger_length = change_string(now.ledger, now.ledger_length, &now.ledger_parts, &seed);
        if (!read_ledger(bytes_of(now.ledger, now.ledger_length), &now.ledger_parts)) break;
        if (!read_block(bytes_of(now.block, now.block_length), &now.block_parts)) break;
    }
    size_t made = put_together(data, room);
    return made ? made : size;
}
