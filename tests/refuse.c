/* Loaded before a program (LD_PRELOAD), refuses the growth of its memory whose number stands in REFUSE, counted from 1, and
   with REFUSE_ON set each one after it too; and each growth by more bytes than stand in REFUSE_ABOVE. Each refusal writes a byte
   to the file descriptor that REFUSE_TO names. */
#include <errno.h>
#include <stdatomic.h>
#include <stddef.h>
#include <stdlib.h>
#include <unistd.h>

void *__libc_malloc(size_t size);
void *__libc_realloc(void *old, size_t size);

static atomic_long asked;
static long refused;
static size_t most;
static int on, to = -1;

__attribute__((constructor)) static void read_settings(void) {
    const char *number = getenv("REFUSE"), *bytes = getenv("REFUSE_ABOVE"), *end = getenv("REFUSE_TO");
    on = getenv("REFUSE_ON") != NULL;
    to = end ? atoi(end) : -1;
    atomic_store(&asked, 0);
    refused = number ? atol(number) : 0;
    most = bytes ? strtoull(bytes, NULL, 10) : 0;
}

static int is_refused(size_t size) {
    long number = atomic_fetch_add(&asked, 1) + 1;
    int is_large = most != 0 && size > most;
    if (!is_large && (refused == 0 || number < refused || (number > refused && !on))) return 0;
    if (write(to, "r", 1) != 1) _exit(99);
    errno = ENOMEM;
    return 1;
}

void *malloc(size_t size) {
    return is_refused(size) ? NULL : __libc_malloc(size);
}

void *realloc(void *old, size_t size) {
    return is_refused(size) ? NULL : __libc_realloc(old, size);
}
