/* refusals FILE..: refuses each allocation of each call in turn, and each with all after it. The call has to say so, and to have
   written nothing; where one alone is refused it may also do without it, and give its very answer. Nothing may stay allocated,
   and the same call without a refusal has to give its answer still. Of the functions of `statuses` each status has to come.
   Linked with -Wl,--wrap=malloc,--wrap=realloc,--wrap=free. */
#include "examples.h"

#include <stdbool.h>
#include <stdio.h>
#include <stdlib.h>
#include <string.h>

void *__real_malloc(size_t size);
void *__real_realloc(void *old, size_t size);
void __real_free(void *old);

static long asked, refused, used;
static bool on;

/* Whether the next allocation is refused: the one of this number, counted from 1, and with `on` each after it. */
static bool is_refused(void) {
    asked++;
    return refused != 0 && (on ? asked >= refused : asked == refused);
}

void *__wrap_malloc(size_t size) {
    void *made = is_refused() ? NULL : __real_malloc(size);
    used += made != NULL;
    return made;
}

void *__wrap_realloc(void *old, size_t size) {
    void *made = is_refused() ? NULL : __real_realloc(old, size);
    used += old == NULL && made != NULL;
    return made;
}

void __wrap_free(void *old) {
    used -= old != NULL;
    __real_free(old);
}

static struct answer untouched, wanted, found;

/* The statuses of some functions, and of each function those that came. A trace that is too long has an input of its own
   (traces.py). */
#define STATUS(name) (UINT32_C(1) << AVM_##name)
static const uint32_t statuses[FUNCTIONS] = {
    [ATTEMPT] = STATUS(DONE) | STATUS(MEMORY) | STATUS(NO_ROOM) | STATUS(NEEDS) | STATUS(NO_HEADER) | STATUS(NO_CALL) | STATUS(NO_ITEMS),
    [PROPOSE] = STATUS(DONE) | STATUS(MEMORY) | STATUS(NO_ROOM) | STATUS(NO_LEDGER) | STATUS(NO_HEADER) | STATUS(NO_CALL),
    [TRACE] = STATUS(DONE) | STATUS(MEMORY) | STATUS(NO_ROOM) | STATUS(NO_LEDGER) | STATUS(NO_BLOCK) | STATUS(NO_ENTRY) |
              STATUS(WRONG_BASE) | STATUS(NO_RUN),
    [DIAGNOSE] = STATUS(DONE) | STATUS(MEMORY) | STATUS(USAGE) | STATUS(NO_TEXT) | STATUS(NOT_ASSEMBLED) | STATUS(NO_PROGRAM) |
                 STATUS(NO_LEDGER) | STATUS(NO_BLOCK) | STATUS(NO_HEADER) | STATUS(NO_CALL) | STATUS(NO_ITEMS),
};
static uint32_t came[FUNCTIONS];

static void note_status(const struct call *call, const struct answer *answer) {
    came[call->function] |= UINT32_C(1) << answer->status;
}

static void look_at_statuses(void) {
    for (int i = 0; i < FUNCTIONS; i++) {
        if (statuses[i] && came[i] != statuses[i]) fail("a status does not come, or another", function_names[i]);
    }
}

/* Makes a call with the refusals that are set, and tells whether something stays allocated. */
static bool leaves(const struct call *call, struct answer *answer) {
    long before = used;
    asked = 0;
    clear(answer);
    make(call, answer, ROOM);
    refused = 0;
    note_status(call, answer);
    return used != before;
}

static void refuse(const struct call *call, long number, bool all_after) {
    const char *name = function_names[call->function];
    refused = number;
    on = all_after;
    if (leaves(call, &found)) fail("something stays allocated after a refusal", name);
    if (!all_after && memcmp(&found, &wanted, sizeof found) == 0) return;
    if (found.status != AVM_MEMORY) fail("a refusal is not said", name);
    bool has_room = call->function != CHECK && call->function != REPLAY && call->function != DIAGNOSE;
    if (has_room && found.written != 0) fail("a refusal that says that something was written", name);
    found.status = untouched.status;
    found.written = untouched.written;
    if (memcmp(&found, &untouched, sizeof found)) fail("something was written in spite of a refusal", name);
}

static long refuse_each(const struct call *call) {
    if (leaves(call, &wanted)) fail("something stays allocated", function_names[call->function]);
    long most = asked;
    if (wanted.status == AVM_MEMORY) fail("memory was refused by nobody", function_names[call->function]);
    for (long number = 1; number <= most; number++) {
        refuse(call, number, false);
        refuse(call, number, true);
    }
    if (leaves(call, &found) || memcmp(&found, &wanted, sizeof found)) fail("another answer", function_names[call->function]);
    make(call, &found, 0);
    note_status(call, &found);
    return most;
}

int main(int words, char **names) {
    static struct call calls[MOST_CALLS];
    long numbers[FUNCTIONS] = {0}, made[FUNCTIONS] = {0};
    size_t count = calls_for(names + 1, words - 1, calls);
    clear(&untouched);
    for (size_t i = 0; i < count; i++) {
        numbers[calls[i].function] += refuse_each(&calls[i]);
        made[calls[i].function]++;
    }
    look_at_statuses();
    printf("refusals:");
    for (int i = 0; i < FUNCTIONS; i++) {
        if (made[i] == 0 || numbers[i] == 0) fail("no allocation", function_names[i]);
        printf(" %s %ld in %ld calls%s", function_names[i], numbers[i], made[i], i < FUNCTIONS - 1 ? "," : "\n");
    }
    return 0;
}
