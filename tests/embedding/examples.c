#define _POSIX_C_SOURCE 200809L
#include "examples.h"

#include <stdio.h>
#include <stdlib.h>
#include <string.h>

enum { MOST_STEPS = 1024 };

void fail(const char *what, const char *of) {
    fprintf(stderr, "WRONG %s: %s\n", of, what);
    exit(1);
}

static struct bytes copy_of(const void *from, size_t length) {
    struct bytes copy = {malloc(length + 1), length};
    if (!copy.at) fail("no memory", "calls");
    memcpy(copy.at, from, length);
    copy.at[length] = 0;
    return copy;
}

static struct bytes file_of(const char *name) {
    static char text[1 << 20];
    FILE *file = fopen(name, "rb");
    if (!file) fail("cannot be read", name);
    size_t length = fread(text, 1, sizeof text, file);
    fclose(file);
    return copy_of(text, length);
}

/* The bytes that a line of digits encodes, and what stands behind it. */
static struct bytes line_of(struct bytes text, size_t *place) {
    size_t count = strspn((char *)text.at + *place, "0123456789abcdef") / 2;
    struct bytes line = copy_of(text.at, count);
    for (size_t i = 0; i < count; i++) {
        char digits[3] = {(char)text.at[*place + 2 * i], (char)text.at[*place + 2 * i + 1], 0};
        line.at[i] = (uint8_t)strtoul(digits, NULL, 16);
    }
    *place += 2 * count + 1;
    return line;
}

static struct call *add(struct call *calls, size_t *count, enum function function, struct bytes first, struct bytes second) {
    if (*count == MOST_CALLS) fail("more than there is room for", "calls");
    struct call call = {function, first, second, 0, 0, {NULL, 0}};
    calls[*count] = call;
    return &calls[(*count)++];
}

static void add_answer(struct call *calls, size_t *count, const char *words, size_t length, struct bytes input) {
    add(calls, count, ANSWER, copy_of(words, length), input);
}

static void add_json(struct call *calls, size_t *count, const char *words, size_t length, struct bytes input) {
    add(calls, count, JSON, copy_of(words, length), input);
}

/* Whether the bytes are what the status says that they are not; and so of the bytes but for the last. */
static void add_diagnoses(struct call *calls, size_t *count, uint32_t status, struct bytes bytes) {
    struct bytes none = copy_of("", 0);
    add(calls, count, DIAGNOSE, bytes, none)->number = status;
    bytes.length--;
    add(calls, count, DIAGNOSE, bytes, none)->number = status;
}

static void add_text_diagnoses(struct call *calls, size_t *count, struct bytes text, struct bytes program) {
    struct bytes none = copy_of("", 0), no_text = copy_of("\xff", 1), no_line = copy_of("int 1", 5);
    add_diagnoses(calls, count, AVM_NOT_ASSEMBLED, text);
    add(calls, count, DIAGNOSE, no_line, none)->number = AVM_NOT_ASSEMBLED;
    add(calls, count, DIAGNOSE, no_text, none)->number = AVM_NO_TEXT;
    add_diagnoses(calls, count, AVM_NO_PROGRAM, program);
    add(calls, count, DIAGNOSE, none, none)->number = AVM_NO_PROGRAM;
    add(calls, count, DIAGNOSE, none, none)->number = AVM_DONE;
}

static void add_source(struct call *calls, size_t *count, struct bytes text) {
    static struct answer answer;
    struct bytes none = copy_of("", 0);
    make(add(calls, count, ASSEMBLE, text, none), &answer, ROOM);
    if (answer.status != AVM_DONE) fail("is not assembled", "a source of examples/");
    struct bytes program = copy_of(answer.room, answer.written);
    add(calls, count, CHECK, program, none);
    add(calls, count, LIST, program, none);
    add_answer(calls, count, "asm", 3, text);
    add_text_diagnoses(calls, count, text, program);
}

/* The views of each entry after 0, 1, 2, 4, 8.. steps, up to one behind the end. */
static void add_views(struct call *calls, size_t *count, struct bytes ledger, struct bytes block) {
    for (uint64_t entry = 1;; entry++) {
        for (uint64_t steps = 0; steps <= MOST_STEPS; steps = steps ? 2 * steps : 1) {
            static struct answer answer;
            struct call *call = add(calls, count, VIEW, ledger, block);
            call->entry = entry;
            call->number = steps;
            make(call, &answer, ROOM);
            if (answer.status == AVM_NO_ENTRY) return;
            if (answer.status != AVM_DONE) break;
        }
    }
}

static size_t number_at(struct bytes bytes, size_t place, size_t size) {
    size_t number = 0;
    for (size_t i = 0; i < size; i++) number = number << 8 | bytes.at[place + i];
    return number;
}

/* The place behind so many byte strings, each behind its length of two bytes. */
static size_t behind_strings(struct bytes bytes, size_t place, size_t count) {
    while (count--) place += 2 + number_at(bytes, place, 2);
    return place;
}

/* The place behind the call that begins there. */
static size_t behind_call(struct bytes block, size_t place) {
    place = behind_strings(block, place + 32 + 3 * 8, 1) + 32 + 32 + 8 + 1;
    place = behind_strings(block, place + 1, block.at[place]);
    place += 1 + 32 * (size_t)block.at[place];
    place += 1 + 8 * (size_t)block.at[place];
    return behind_strings(block, place, 2) + 4;
}

/* The place behind the outcome that begins there. */
static size_t behind_outcome(struct bytes block, size_t place) {
    static const size_t sizes[] = {1, 1, 4, 2}, cleared[] = {2, 2, 5};
    uint8_t kind = block.at[place];
    return place + (kind < 4 ? sizes[kind] : cleared[block.at[place + 1]]);
}

/* The value of an item that nothing is known of, behind the item: the next id 1, or that it is absent. */
static size_t put_value(uint8_t *at, uint8_t kind) {
    memset(at, 0, 8);
    if (kind != 0) return 1;
    at[7] = 1;
    return 8;
}

enum { HEADER = 4 + 2 + 32, FIRST = HEADER + 40 + 4 + 8, MOST_KNOWN = 1 << 10 };

/* The header of a block of format 2, and its first call. */
static struct bytes header_in(struct bytes block) {
    return copy_of(block.at + HEADER, 40);
}

static struct bytes first_in(struct bytes block) {
    return copy_of(block.at + FIRST, behind_call(block, FIRST) - FIRST);
}

/* The calls of a block of format 2 as a list, but for the first ones. */
static struct bytes calls_in(struct bytes block, size_t left_out) {
    size_t place = HEADER + 40 + 4, length = 4, all = number_at(block, HEADER + 40, 4);
    struct bytes calls = copy_of(block.at, block.length);
    for (size_t number = 0; number < all; number++) {
        size_t begin = place + 8, end = behind_call(block, begin);
        place = behind_outcome(block, end);
        if (number < left_out) continue;
        memcpy(calls.at + length, block.at + begin, end - begin);
        length += end - begin;
    }
    for (size_t i = 0; i < 4; i++) calls.at[i] = (uint8_t)((all - left_out) >> 8 * (3 - i));
    calls.length = length;
    return calls;
}

/* That call over these items. */
static struct call *add_attempt(struct call *calls, size_t *count, struct bytes block, const uint8_t *known, size_t length) {
    struct call *call = add(calls, count, ATTEMPT, header_in(block), first_in(block));
    call->third = copy_of(known, length);
    return call;
}

/* That call with bytes that are no header, no call, or no items. */
static void add_no_attempts(struct call *calls, size_t *count, struct bytes block) {
    static const uint8_t none[4];
    add_attempt(calls, count, block, none, sizeof none)->first.length--;
    add_attempt(calls, count, block, none, sizeof none)->second.length--;
    add_attempt(calls, count, block, none, sizeof none)->third.length--;
}

/* That call over the ledger; and over no items, and then over each item that it asks for, to its end. */
static void add_calls(struct call *calls, size_t *count, struct bytes ledger, struct bytes block) {
    static struct answer answer;
    add_no_attempts(calls, count, block);
    add(calls, count, CALL, ledger, header_in(block))->third = first_in(block);
    uint8_t known[MOST_KNOWN] = {0};
    size_t length = 4;
    do {
        make(add_attempt(calls, count, block, known, length), &answer, ROOM);
        if (answer.status != AVM_DONE && answer.status != AVM_NEEDS) fail("is not attempted", "a call of examples/");
        if (length + answer.written + 8 > sizeof known) fail("asks for many items", "a call of examples/");
        memcpy(known + length, answer.room, answer.written);
        length += answer.written;
        length += put_value(known + length, answer.room[0]);
        known[3]++;
    } while (answer.status == AVM_NEEDS);
}

static struct call *add_proposal(struct call *calls, size_t *count, struct bytes ledger, struct bytes header, struct bytes list) {
    struct call *call = add(calls, count, PROPOSE, ledger, header);
    call->third = list;
    return call;
}

/* Bytes that are no ledger, no header, or no calls. */
static void add_no_proposals(struct call *calls, size_t *count, struct bytes ledger, struct bytes header, struct bytes list) {
    add_proposal(calls, count, ledger, header, list)->first.length--;
    add_proposal(calls, count, ledger, header, list)->second.length--;
    add_proposal(calls, count, ledger, header, list)->third.length--;
}

static struct call *add_trace(struct call *calls, size_t *count, struct bytes ledger, struct bytes block, uint64_t entry) {
    struct call *call = add(calls, count, TRACE, ledger, block);
    call->entry = entry;
    return call;
}

/* The calls of a block over its ledger. The last one alone is refused over the empty ledger, and no program runs. */
static void add_proposals(struct call *calls, size_t *count, struct bytes ledger, struct bytes block) {
    static struct answer answer;
    struct bytes empty = copy_of("\0\0\0\0\0\0\0\1\0\0\0\0\0\0\0\0", 16), header = header_in(block), list = calls_in(block, 0);
    add_proposal(calls, count, ledger, header, list);
    add_no_proposals(calls, count, ledger, header, list);
    make(add_proposal(calls, count, empty, header, calls_in(block, number_at(block, HEADER + 40, 4) - 1)), &answer, ROOM);
    if (answer.status != AVM_DONE) fail("is not proposed", "a call of examples/");
    struct bytes made = copy_of(answer.room, answer.written);
    add_trace(calls, count, empty, made, 0);
    add_trace(calls, count, empty, made, 1);
    add_trace(calls, count, empty, block, 1);
    add_trace(calls, count, ledger, block, 1);
    add_trace(calls, count, ledger, block, UINT64_MAX);
    add_trace(calls, count, ledger, block, 1)->first.length--;
    add_trace(calls, count, ledger, block, 1)->second.length--;
}

static void add_parts(struct call *calls, size_t *count, struct bytes ledger, struct bytes block) {
    static const uint8_t none[4];
    add_calls(calls, count, ledger, block);
    add_proposals(calls, count, ledger, block);
    add_diagnoses(calls, count, AVM_NO_LEDGER, ledger);
    add_diagnoses(calls, count, AVM_NO_BLOCK, block);
    add_diagnoses(calls, count, AVM_NO_HEADER, header_in(block));
    add_diagnoses(calls, count, AVM_NO_CALL, first_in(block));
    add_diagnoses(calls, count, AVM_NO_ITEMS, copy_of(none, sizeof none));
}

static void add_block(struct call *calls, size_t *count, struct bytes text) {
    size_t place = 0;
    struct bytes ledger = line_of(text, &place), block = line_of(text, &place);
    add(calls, count, REPLAY, ledger, block);
    add(calls, count, APPLY, ledger, block);
    add(calls, count, STATE, ledger, block)->number = 0;
    add(calls, count, STATE, ledger, block)->number = UINT64_MAX;
    add_views(calls, count, ledger, block);
    if (number_at(block, 4, 2) == 0x0203 && number_at(block, HEADER + 40, 4) > 0) add_parts(calls, count, ledger, block);
    add_answer(calls, count, "replay", 6, text);
    add_answer(calls, count, "state\0--at\0" "3", 12, text);
    add_answer(calls, count, "debug\0--entry\0" "3\0--steps\0" "9", 25, text);
    add_json(calls, count, "show", 4, text);
    add_json(calls, count, "trace\0--entry=3", 15, text);
}

size_t calls_for(char **names, int files, struct call *calls) {
    size_t count = 0;
    for (int i = 0; i < files; i++) {
        struct bytes text = file_of(names[i]);
        if (strstr(names[i], ".teal")) add_source(calls, &count, text);
        else add_block(calls, &count, text);
    }
    if (count == 0) fail("none", "calls");
    return count;
}
