/* avm_c_view: the place is an instruction of the program or its end; the instruction that is shown is the one that stands there;
   steps lead from view to view as instructions do; the last view shows how the call ends, as the block that agrees says. */
#include "blocks.h"
#include "steps.h"

#include <stdio.h>
#include <stdlib.h>
#include <string.h>

enum { MOST_STEPS = MOST_BYTES + 2, LINE = 160, WALK = 8 };

static const char *const faults[] = {
    "Err", "Underflow", "WrongType", "Compare", "Overflow", "Negative", "DivZero", "TooLong", "Range", "BtoiLength", "StackFull",
    "NoConstant", "BadField", "NoTxn", "NoArg", "NoAccount", "NoForeign", "NotOptedIn", "NoSuchApp", "Schema", "KeyLength",
    "FinalDepth", "FinalBytes", "Assert"};

/* A call of a block that agrees, and its program. */
struct shown {
    struct bytes ledger, block, program;
    uint64_t number;
    uint8_t outcome[5];
};

/* A line of a view behind its name. */
static void line_of(const struct answer *view, const char *name, char line[LINE]) {
    char front[LINE + 16];
    size_t length = view->written < sizeof front - 1 ? view->written : sizeof front - 1;
    memcpy(front, view->room, length);
    front[length] = 0;
    const char *at = strstr(front, name);
    demand(at != NULL, "a view has no such line");
    at += strlen(name);
    size_t count = strcspn(at, "\n");
    if (count > LINE - 1) count = LINE - 1;
    memcpy(line, at, count);
    line[count] = 0;
}

static void look_at_next(const struct program *program, const struct answer *view) {
    char place[LINE], next[LINE], name[LINE] = "";
    line_of(view, "place ", place);
    line_of(view, "\nnext ", next);
    char *end;
    size_t at = strtoul(place, &end, 10);
    demand(*place && !*end, "a place is no number");
    demand(is_place(program, at), "a place is neither an instruction's nor the end");
    sscanf(next, "%159s", name);
    const struct instruction *it = instruction_at(program, at);
    if (it) note(VIEWS, number_of(it->row) * 32 + (strcmp(name, "fault") == 0));
    if (strcmp(name, "end") == 0 || strcmp(name, "fault") == 0) return;
    demand(it && strcmp(name, it->row->name) == 0, "another instruction is shown than stands there");
}

/* The last view is that of the call's end. A fault of the program's end is none of an instruction. */
static void look_at_last(const struct shown *it, const struct program *program, const struct answer *view) {
    char place[LINE], next[LINE], wanted[LINE];
    const uint8_t *outcome = it->outcome;
    line_of(view, "place ", place);
    line_of(view, "\nnext ", next);
    if (outcome[0] == 4) outcome++;
    if (outcome[0] != AVM_FAULTED) {
        demand(strcmp(next, "end") == 0, "the last view of a call that does not fault is not of its end");
        return;
    }
    demand(outcome[1] >= 1 && outcome[1] <= sizeof faults / sizeof *faults, "a fault has no such number");
    const char *name = faults[outcome[1] - 1];
    const struct instruction *at = instruction_at(program, strtoul(place, NULL, 10));
    note(FAULTS, outcome[1] * 128u + (at ? number_of(at->row) : 127));
    snprintf(wanted, sizeof wanted, strncmp(name, "Final", 5) ? "fault %s" : "end", name);
    demand(strcmp(next, wanted) == 0, "a view shows another fault than the outcome");
    demand(strtoul(place, NULL, 10) == ((unsigned long)outcome[2] << 8 | outcome[3]), "a view shows a fault at another place");
}

/* The program that runs in a call: its own, or that of the ledger that it meets. The bytes stay until the next call of this. */
static bool find_program(struct shown *it, const struct entry *entry) {
    static struct answer before;
    static struct parts parts;
    it->program = entry->approval;
    if (entry->application == CREATES) return true;
    if (state_at(it->ledger, it->block, entry->timestamp - 1, &before) != AVM_DONE) return false;
    if (!read_ledger(answered(&before), &parts)) return false;
    for (size_t i = 0; i < parts.application_count; i++) {
        const struct application *found = &parts.applications[i];
        if (found->id != entry->application) continue;
        it->program = entry->completion == CLEARS ? found->clear : found->approval;
        return true;
    }
    it->program.length = 0;
    return true;
}

static bool runs_none(const uint8_t *outcome) {
    return outcome[0] == AVM_CALL_REFUSED || (outcome[0] == 4 && outcome[1] == 0);
}

/* The count behind a line's name is counted, up to 31. Lines behind a long stack are left. */
static void note_count(const struct answer *view, const char *name, unsigned kind) {
    char front[4096];
    size_t length = view->written < sizeof front - 1 ? view->written : sizeof front - 1;
    memcpy(front, view->room, length);
    front[length] = 0;
    const char *at = strstr(front, name);
    unsigned long count = at ? strtoul(at + strlen(name), NULL, 10) : 0;
    note(VIEWS, 4096 + kind * 32 + (count < 31 ? (unsigned)count : 31));
}

/* Whether there is a view after so many steps. */
static bool has_view(const struct shown *it, uint64_t steps, struct answer *view) {
    uint32_t status = viewed(it->ledger, it->block, it->number, steps, view);
    demand(status == AVM_DONE || status == AVM_ENDED || status == AVM_NO_ROOM, "view has another status");
    if (status == AVM_DONE) {
        note_count(view, "\nstack ", 1);
        note_count(view, "\nchanges ", 2);
    }
    return status != AVM_ENDED;
}

/* The number of the last view, found by halves. */
static uint64_t last_steps(const struct shown *it, struct answer *view) {
    uint64_t low = 0, high = MOST_STEPS;
    demand(has_view(it, 0, view), "a call that runs has no first view");
    demand(!has_view(it, high, view), "a program has more steps than bytes");
    while (high - low > 1) {
        uint64_t middle = (low + high) / 2;
        if (has_view(it, middle, view)) low = middle;
        else high = middle;
    }
    return low;
}

/* Some steps from a view on, each done again. */
static void look_at_steps(const struct shown *it, const struct program *program, uint64_t steps, uint64_t last) {
    static struct answer views[2];
    struct answer *before = &views[0], *after = &views[1], *other;
    has_view(it, steps, before);
    for (uint64_t end = steps + WALK < last ? steps + WALK : last; steps < end; steps++) {
        has_view(it, steps + 1, after);
        if (before->status == AVM_DONE && after->status == AVM_DONE) look_at_step(program, before, after);
        other = before, before = after, after = other;
    }
}

static void look_at_views(const struct shown *it, uint8_t chosen) {
    static struct program program;
    static struct answer view;
    demand(read_program(it->program, &program), "a program of a ledger or a call breaks a rule");
    uint64_t last = last_steps(it, &view);
    demand(last <= program.count + 1, "a call has more steps than its program has instructions");
    for (uint64_t steps = chosen; ; steps = last) {
        if (steps > last) steps %= last + 1;
        if (!has_view(it, steps, &view)) wrong("there is no view before the last one");
        if (view.status == AVM_DONE) look_at_next(&program, &view);
        look_at_steps(it, &program, steps, last);
        if (view.status == AVM_DONE && steps == last) look_at_last(it, &program, &view);
        if (steps == last) return;
    }
}

int LLVMFuzzerTestOneInput(const uint8_t *at, size_t length) {
    static struct parts parts;
    static struct answer view;
    struct pair pair = pair_of(at, length);
    struct bytes block;
    viewed(pair.ledger, pair.block, pair.first, pair.second, &view);
    if (!settle(&pair, &block) || !read_block(block, &parts)) return 0;
    demand(viewed(pair.ledger, block, 0, 0, &view) == AVM_NO_ENTRY, "there is an entry 0");
    demand(viewed(pair.ledger, block, parts.entry_count + 1, 0, &view) == AVM_NO_ENTRY, "there is an entry behind the last");
    if (parts.entry_count == 0) return 0;
    const struct entry *entry = &parts.entries[pair.first % parts.entry_count];
    struct shown it = {pair.ledger, block, {0}, pair.first % parts.entry_count + 1, {0}};
    memcpy(it.outcome, block.at + entry->outcome, entry->end - entry->outcome);
    if (runs_none(it.outcome)) {
        demand(viewed(it.ledger, block, it.number, pair.second, &view) == AVM_NO_RUN, "a call without a program has a view");
        return 0;
    }
    if (find_program(&it, entry)) look_at_views(&it, pair.second);
    return 0;
}
