/* threads STACK FILE..: eight threads, each with so many bytes of stack, make all calls at once, time and again. Each has to give
   what it gave to one thread alone. */
#define _POSIX_C_SOURCE 200809L
#include "examples.h"

#include <pthread.h>
#include <stdio.h>
#include <stdlib.h>
#include <string.h>

enum { THREADS = 8, ROUNDS = 5, GUARD = 1 << 22 };

static struct call calls[MOST_CALLS];
static struct answer *wanted;
static size_t count;
static pthread_barrier_t start;

/* A thread begins with a call of its own, so that threads make different calls at once. */
static void *make_all(void *place) {
    struct answer *answer = place;
    size_t number = answer->written;
    pthread_barrier_wait(&start);
    for (size_t i = 0; i < ROUNDS * count; i++) {
        size_t at = (i + number * count / THREADS) % count;
        clear(answer);
        make(&calls[at], answer, ROOM);
        if (memcmp(answer, &wanted[at], sizeof *answer)) fail("threads get another answer", function_names[calls[at].function]);
    }
    return NULL;
}

int main(int words, char **names) {
    if (words < 3) fail("usage: threads STACK FILE..", "words");
    count = calls_for(names + 2, words - 2, calls);
    wanted = malloc(count * sizeof *wanted);
    struct answer *answers = malloc(THREADS * sizeof *answers);
    pthread_attr_t small;
    if (!wanted || !answers || pthread_attr_init(&small)) fail("no memory", "threads");
    for (size_t i = 0; i < count; i++) {
        clear(&wanted[i]);
        make(&calls[i], &wanted[i], ROOM);
    }
    if (pthread_attr_setstacksize(&small, strtoul(names[1], NULL, 10))) fail("no size of a stack", names[1]);
    /* A frame that is larger than a page would step over a guard of one. */
    if (pthread_attr_setguardsize(&small, GUARD) || pthread_barrier_init(&start, NULL, THREADS)) fail("no memory", "threads");
    pthread_t threads[THREADS];
    for (size_t i = 0; i < THREADS; i++) {
        answers[i].written = i;
        if (pthread_create(&threads[i], &small, make_all, &answers[i])) fail("a thread does not start", "threads");
    }
    for (size_t i = 0; i < THREADS; i++) pthread_join(threads[i], NULL);
    printf("threads: %d with %s bytes of stack each made %d times %zu calls\n", THREADS, names[1], ROUNDS, count);
    return 0;
}
