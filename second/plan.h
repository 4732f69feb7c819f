/* The stacking plan: whether all open windows can still be kept, one after the other. */
#ifndef PLAN_H
#define PLAN_H

#include "bench.h"

/* The state is the one that stands at the candidate's end. */
bool passes_plan(const struct load *load, const struct bench *at_end);

#endif
