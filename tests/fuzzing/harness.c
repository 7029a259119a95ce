#include "fuzzing.h"

#include <stdio.h>
#include <stdlib.h>
#include <string.h>

enum { EACH = 8192, ONE_IN = 8 };

__attribute__((section("__libfuzzer_extra_counters"))) static uint8_t counters[KINDS][EACH];
static bool reached[KINDS][EACH];
static const char *const kinds[KINDS] = {"statuses", "endings", "faults", "opcodes", "pairs", "names", "views"};

static long used, allocations, refused_at;

/* libFuzzer allocates in the same process, so what is counted is what the library alone asks for: these three are called by
   the toolchain's library, in whose object malloc, realloc and free are renamed. */
void *avm_malloc(size_t size);
void *avm_realloc(void *old, size_t size);
void avm_free(void *old);

static bool is_refused(void) {
    return ++allocations == refused_at;
}

void *avm_malloc(size_t size) {
    void *made = is_refused() ? NULL : malloc(size);
    used += made != NULL;
    return made;
}

void *avm_realloc(void *old, size_t size) {
    void *made = is_refused() ? NULL : realloc(old, size);
    used += old == NULL && made != NULL;
    return made;
}

void avm_free(void *old) {
    used -= old != NULL;
    free(old);
}

static void print_reached(void) {
    fprintf(stderr, "reached:");
    for (int kind = 0; kind < KINDS; kind++) {
        int count = 0;
        for (int i = 0; i < EACH; i++) count += reached[kind][i];
        fprintf(stderr, " %s %d", kinds[kind], count);
    }
    fprintf(stderr, "\n");
}

__attribute__((constructor)) static void print_at_end(void) {
    atexit(print_reached);
}

void note(enum kind kind, unsigned value) {
    uint8_t *counter = &counters[kind][value % EACH];
    if (*counter < UINT8_MAX) ++*counter;
    reached[kind][value % EACH] = true;
}

uint32_t hash_of(const void *at, size_t length) {
    const uint8_t *bytes = at;
    uint32_t hash = 2166136261u;
    for (size_t i = 0; i < length; i++) hash = (hash ^ bytes[i]) * 16777619u;
    return hash ^ hash >> 15;
}

void wrong(const char *what) {
    fprintf(stderr, "WRONG: %s\n", what);
    abort();
}

bool are_same(struct bytes one, struct bytes other) {
    return one.length == other.length && memcmp(one.at, other.at, one.length) == 0;
}

static bool has_text(const struct call *call, uint32_t status) {
    bool is_program = call->function == ANSWER || call->function == JSON;
    return status == AVM_DONE || (is_program && (status == AVM_REFUSED || status == AVM_USAGE)) ||
           (call->function == ATTEMPT && status == AVM_NEEDS);
}

/* Whether the status comes with numbers in `end`, or in `trouble`. */
static bool has_end(const struct call *call, uint32_t status) {
    return (call->function == ATTEMPT || call->function == CALL) && status != AVM_MEMORY;
}

static bool has_trouble(const struct call *call, uint32_t status) {
    bool is_told = status != AVM_DONE && status != AVM_USAGE && status != AVM_MEMORY;
    return call->function == DIAGNOSE ? is_told : call->function == PROPOSE && status == AVM_NO_CALL;
}

static bool is_lent_room(const struct call *call) {
    return call->function != CHECK && call->function != REPLAY && call->function != DIAGNOSE;
}

static bool is_marked(const void *at, size_t length) {
    const uint8_t *bytes = at;
    return length == 0 || (bytes[0] == MARK && memcmp(bytes, bytes + 1, length - 1) == 0);
}

/* Nothing is written but what the status says. */
static void look_at_marks(const struct call *call, const struct answer *answer, size_t room) {
    uint32_t status = answer->status;
    bool agrees = call->function == REPLAY && status == AVM_DONE, differs = status == AVM_WRONG_OUTCOME;
    demand(agrees || is_marked(answer->digest, sizeof answer->digest), "a digest was written");
    demand(differs || is_marked(&answer->difference, sizeof answer->difference), "a difference was written");
    demand(has_end(call, status) || is_marked(&answer->end, sizeof answer->end), "an end was written");
    demand(has_trouble(call, status) || is_marked(&answer->trouble, sizeof answer->trouble), "a trouble was written");
    if (!is_lent_room(call)) {
        demand(is_marked(answer->room, sizeof answer->room), "something was written where nothing is lent");
        return;
    }
    size_t filled = has_text(call, status) ? answer->written : 0;
    demand(filled <= room, "an answer is longer than its room");
    demand(is_marked(answer->room + filled, sizeof answer->room - filled), "something was written beyond the answer");
    demand(filled != 0 || status == AVM_NO_ROOM || answer->written == 0, "no answer, and something said to be written");
    demand(status != AVM_NO_ROOM || answer->written > room, "there was enough room");
}

static void make_whole(const struct call *call, struct answer *answer, size_t room) {
    used = allocations = 0;
    clear(answer);
    make(call, answer, room);
    demand(used == 0, "something stays allocated");
    look_at_marks(call, answer, room);
}

static void with_other_room(const struct call *call, const struct answer *wanted, uint32_t chosen) {
    static struct answer found;
    size_t length = wanted->written, room = chosen % 2 ? length - 1 : 0;
    make_whole(call, &found, room);
    demand(found.status == AVM_NO_ROOM && found.written == length, "too little room is not said");
    make_whole(call, &found, length);
    demand(memcmp(&found, wanted, sizeof found) == 0, "another answer with as much room as is wanted");
}

/* A refused allocation is said, or was none that the answer needs. */
static void with_refusal(const struct call *call, const struct answer *wanted, long most, uint32_t chosen) {
    static struct answer found;
    refused_at = 1 + (long)(chosen % (unsigned long)most);
    make_whole(call, &found, ROOM);
    refused_at = 0;
    bool is_same = memcmp(&found, wanted, sizeof found) == 0;
    demand(found.status == AVM_MEMORY || is_same, "a refused allocation is not said");
}

static void again(const struct call *call, const struct answer *wanted) {
    static struct answer found;
    make_whole(call, &found, ROOM);
    demand(memcmp(&found, wanted, sizeof found) == 0, "the same call gives another answer");
}

uint32_t called(struct call call, struct answer *answer) {
    make_whole(&call, answer, ROOM);
    long most = allocations;
    uint32_t status = answer->status, chosen = hash_of(call.first.at, call.first.length) ^ (uint32_t)call.number;
    /* Headers are mostly the same, and ledgers. */
    bool has_more = call.third.length > 0 || call.function == APPLY || call.function == TRACE || call.function == JSON;
    if (has_more) chosen ^= hash_of(call.second.at, call.second.length) ^ hash_of(call.third.at, call.third.length);
    demand(status != AVM_MEMORY, "memory was refused by nobody");
    note(STATUSES, (unsigned)call.function * 32 + status);
    if (chosen % ONE_IN == 0 && is_lent_room(&call) && has_text(&call, status) && answer->written > 0) {
        with_other_room(&call, answer, chosen / ONE_IN);
    }
    if (chosen % ONE_IN == 2) again(&call, answer);
    if (chosen % ONE_IN == 1 && most > 0) with_refusal(&call, answer, most, chosen / ONE_IN);
    return status;
}

/* What a refusal or a verdict says is counted, without its numbers. */
static void note_name(const struct answer *answer) {
    uint8_t letters[64];
    size_t length = 0;
    for (size_t i = 0; i < answer->written && answer->room[i] != '\n' && length < sizeof letters; i++) {
        if (answer->room[i] < '0' || answer->room[i] > '9') letters[length++] = answer->room[i];
    }
    note(NAMES, hash_of(letters, length));
}

uint32_t asked(struct bytes words, struct bytes input, struct answer *answer) {
    struct call call = {ANSWER, words, input, 0, 0, {NULL, 0}};
    uint32_t status = called(call, answer);
    if (status == AVM_REFUSED) note_name(answer);
    return status;
}
