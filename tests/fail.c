/* Loaded before a program (LD_PRELOAD), has each read of standard input and each write to standard output move one byte, and
   the read whose number stands in FAIL_READ, or the write whose number stands in FAIL_WRITE, counted from 1, fail. */
#define _GNU_SOURCE
#include <errno.h>
#include <stdlib.h>
#include <sys/syscall.h>
#include <unistd.h>

static int fails(const char *name, long *done) {
    const char *number = getenv(name);
    *done += 1;
    if (number == NULL || atol(number) != *done) return 0;
    errno = EIO;
    return 1;
}

ssize_t read(int from, void *to, size_t size) {
    static long done;
    if (from != 0) return syscall(SYS_read, from, to, size);
    return fails("FAIL_READ", &done) ? -1 : syscall(SYS_read, from, to, size > 0);
}

ssize_t write(int to, const void *from, size_t size) {
    static long done;
    if (to != 1) return syscall(SYS_write, to, from, size);
    return fails("FAIL_WRITE", &done) ? -1 : syscall(SYS_write, to, from, size > 0);
}
