/* What a listing has to be, and a program that was assembled. */
#ifndef LISTINGS_H
#define LISTINGS_H

#include "programs.h"

uint32_t assembled(struct bytes text, struct answer *answer);
uint32_t listed(struct bytes program, struct answer *answer);

/* Lowercase digits and a line feed; gives how many bytes they are. */
size_t hex_of(struct bytes bytes, uint8_t *to);

/* The listing of a program assembles to a program with the same instructions, which lists the same, and whose listing assembles
   to its very bytes. */
void look_at_listing(struct bytes program);

#endif
