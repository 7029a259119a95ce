/* What ledgers, blocks and items have in common, read by docs/FORMATS.md. */
#ifndef READER_H
#define READER_H

#include "blocks.h"

enum { MOST_KEY = 64, MOST_GLOBAL = 64, MOST_LOCAL = 16 };

/* A place in bytes that are read, until they end or something is none. */
struct reader {
    struct bytes bytes;
    size_t place;
    bool fails, is_short; /* whether something is none, and whether that is since the bytes end in a field */
    struct parts *parts;
};

/* A reader at the beginning of the bytes, which forgets what stands in the parts. */
struct reader reader_of(struct bytes bytes, struct parts *parts);

/* Whether all was read, and nothing was none; and what is wrong else. */
bool is_read(const struct reader *reader);
struct ends ends_of(const struct reader *reader);

/* So many bytes; zeros where there are less. */
const uint8_t *take(struct reader *reader, size_t count);
uint64_t read_number(struct reader *reader, size_t size);

/* A byte string behind its length of so many bytes. */
struct bytes read_string(struct reader *reader, size_t size, bool is_program);

/* Keys and byte strings of values have 64 bytes at most. */
struct bytes read_key(struct reader *reader);
void read_value(struct reader *reader);

/* At most so many entries, by rising key. */
void read_state(struct reader *reader, uint64_t most);

/* An application without its id and its global state. */
void read_row(struct reader *reader, struct application *it);

#endif
