/* The calls that the callers of this folder make: each function of avm.h, over the files of examples/. */
#ifndef EXAMPLES_H
#define EXAMPLES_H

#include "calls.h"

enum { MOST_CALLS = 1000 };

/* The calls for these files: sources, and blocks behind the ledger before them as lines of digits. Ends the program where
   there are none. The bytes stay for good. */
size_t calls_for(char **names, int count, struct call *calls);

_Noreturn void fail(const char *what, const char *of);

#endif
