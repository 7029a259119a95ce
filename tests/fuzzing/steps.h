/* One step of a program between two views, done again apart from the library: each instruction but those that read the call, the
   block or a ledger. */
#ifndef STEPS_H
#define STEPS_H

#include "programs.h"

/* What the views before and after an instruction show has to be what it does. */
void look_at_step(const struct program *program, const struct answer *before, const struct answer *after);

#endif
