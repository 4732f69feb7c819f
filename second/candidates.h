/* The steps that may start now, in the order in which they are tried. */
#ifndef CANDIDATES_H
#define CANDIDATES_H

#include "bench.h"

/* The moment at which a slot's step ends, at full cost. */
uint32_t end_of(const struct load *load, struct slot slot);

/* Ready, allowed steps that would end by 1,000,000: how many, and each as the slot that it would
   be. */
unsigned candidates_of(const struct load *load, const struct bench *state,
                       struct slot candidates[MOST_ROWS]);

#endif
