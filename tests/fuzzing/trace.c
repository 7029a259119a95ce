/* avm_c_trace: the trace of each entry stands in that of all entries, where the call runs a program, and else there is none. The first
   entry whose outcome is another than the recorded one is the one that avm_c_replay finds, which ends so. */
#include "blocks.h"

#include <stdio.h>
#include <stdlib.h>
#include <string.h>

enum { LONGEST_TRACE = 1 << 21, INDENT = 4 };

/* Lines that are read one after another. */
struct lines {
    struct bytes left;
};

static struct bytes next_line(struct lines *lines) {
    const uint8_t *end = lines->left.length ? memchr(lines->left.at, '\n', lines->left.length) : NULL;
    demand(end != NULL, "a trace ends early");
    struct bytes line = bytes_of(lines->left.at, (size_t)(end - lines->left.at));
    lines->left = bytes_of(end + 1, lines->left.length - line.length - 1);
    return line;
}

static bool begins(struct bytes text, const char *with) {
    return text.length >= strlen(with) && memcmp(text.at, with, strlen(with)) == 0;
}

static bool is_text(struct bytes text, const char *wanted) {
    return text.length == strlen(wanted) && begins(text, wanted);
}

static uint32_t traced(struct bytes ledger, struct bytes block, uint64_t entry, struct answer *answer) {
    struct call call = {TRACE, ledger, block, entry, 0, {NULL, 0}};
    return called(call, answer);
}

/* The same with more room. False where the trace is longer than that. */
static bool trace_of(struct bytes ledger, struct bytes block, uint64_t entry, uint8_t *room, struct bytes *trace) {
    size_t written;
    uint32_t status = avm_c_trace(ledger.at, ledger.length, block.at, block.length, entry, room, LONGEST_TRACE, &written);
    demand(status == AVM_DONE || status == AVM_NO_ROOM || status == AVM_TOO_LONG, "a trace has another status");
    *trace = bytes_of(room, written);
    return status == AVM_DONE;
}

/* What the trace of all entries says of one. */
struct told {
    struct bytes outcome, recorded, element;
};

/* The next element, by its lines; what stands in it may have no line of its own indentation but the last. */
static struct told next_element(struct lines *lines, bool is_last) {
    struct told told = {{0}, {0}, lines->left};
    demand(is_text(next_line(lines), "    {"), "an element does not begin");
    for (;;) {
        struct bytes line = next_line(lines);
        if (begins(line, "      \"outcome\": ")) told.outcome = bytes_of(line.at + 17, line.length - 18);
        if (begins(line, "      \"recorded-outcome\": ")) told.recorded = bytes_of(line.at + 26, line.length - 26);
        if (!begins(line, "    }")) continue;
        demand(is_text(line, is_last ? "    }" : "    },"), "an element ends otherwise");
        demand(told.outcome.at && told.recorded.at, "an element has no outcome");
        told.element.length = (size_t)(line.at - told.element.at);
        return told;
    }
}

static bool runs_none(const struct told *told) {
    return begins(told->outcome, "\"refused ") || is_text(told->outcome, "\"cleared gone\"");
}

/* The trace of one entry is its element, with less in front of each line. */
static void compare(const struct told *told, struct bytes trace) {
    struct lines wanted = {told->element}, found = {trace};
    while (wanted.left.length > 0) {
        struct bytes one = next_line(&wanted), other = next_line(&found);
        demand(one.length == other.length + INDENT, "a line of a trace is another in that of all entries");
        demand(memcmp(one.at + INDENT, other.at, other.length) == 0, "a line of a trace is another in that of all entries");
    }
    demand(is_text(next_line(&found), "}") && found.left.length == 0, "a trace has more than in that of all entries");
}

/* An outcome is how the call ends, by the words of its kind and the place. */
static void look_at_difference(const struct told *told, const struct avm_difference *found) {
    static const char *const kinds[] = {"\"approved\"", "\"rejected\"", "\"faulted ", "\"refused ", "\"cleared gone\"",
                                        "\"cleared rejected\"", "\"cleared faulted "};
    char text[64] = "", place[32];
    memcpy(text, told->outcome.at, told->outcome.length < 63 ? told->outcome.length : 63);
    demand(found->ending <= AVM_CLEARED_FAULTED, "an ending has no such number");
    demand(begins(told->outcome, kinds[found->ending]), "a call ends otherwise in its trace");
    if (found->ending != AVM_FAULTED && found->ending != AVM_CLEARED_FAULTED) return;
    snprintf(place, sizeof place, " %u\"", found->place);
    size_t length = strlen(text), last = strlen(place);
    demand(length > last && strcmp(text + length - last, place) == 0, "a fault has another place in its trace");
}

/* Every element, and what it says beside the verdict. */
static void look_at_elements(struct bytes ledger, struct bytes block, const struct parts *parts, struct bytes all, uint64_t chosen) {
    static struct answer answer;
    static uint8_t room[LONGEST_TRACE];
    struct lines lines = {all};
    struct bytes trace;
    uint32_t verdict = replayed(ledger, block, &answer);
    uint64_t differs = verdict == AVM_WRONG_OUTCOME ? answer.difference.entry : 0, found = 0;
    for (int i = 0; i < 4; i++) next_line(&lines);
    for (uint64_t number = 1; number <= parts->entry_count; number++) {
        struct told told = next_element(&lines, number == parts->entry_count);
        if (!found && !are_same(told.outcome, told.recorded)) found = number;
        if (number == differs) look_at_difference(&told, &answer.difference);
        if (number != chosen) continue;
        static struct answer alone;
        uint32_t status = traced(ledger, block, number, &alone);
        demand((status == AVM_NO_RUN) == runs_none(&told), "a call without a program has a trace, or another has none");
        note(VIEWS, (unsigned)(told.element.length >> 8));
        if (status != AVM_NO_RUN && trace_of(ledger, block, number, room, &trace)) compare(&told, trace);
    }
    demand(found == differs, "replay finds another entry than the traces");
}

int LLVMFuzzerTestOneInput(const uint8_t *at, size_t length) {
    static struct parts parts;
    static struct answer answer;
    static uint8_t room[LONGEST_TRACE];
    struct pair pair = pair_of(at, length);
    struct bytes block, all;
    uint32_t status = traced(pair.ledger, pair.block, pair.first, &answer);
    demand(status == AVM_DONE || status == AVM_NO_ROOM || status == AVM_TOO_LONG || status == AVM_NO_RUN || status == AVM_NO_ENTRY ||
               (status >= AVM_NO_LEDGER && status <= AVM_WRONG_BASE), "trace has another status");
    if (!rebase(&pair, &block) || !read_block(block, &parts)) return 0;
    status = replayed(pair.ledger, block, &answer);
    if (status == AVM_NO_LEDGER || status == AVM_NO_BLOCK) return 0;
    demand(traced(pair.ledger, block, parts.entry_count + 1, &answer) == AVM_NO_ENTRY, "there is an entry behind the last");
    if (parts.entry_count == 0 || !trace_of(pair.ledger, block, 0, room, &all)) return 0;
    look_at_elements(pair.ledger, block, &parts, all, pair.first % parts.entry_count + 1);
    return 0;
}
