/* Good loads on which a wrong order of candidates shows. */
#ifndef CLASS_KINDS_H
#define CLASS_KINDS_H

#include "bench.h"

/* With every row of class 0 the run, or the move from a shaped state, is another one. */
bool turns_by_class(const struct load *load);
bool moves_by_class(const struct load *load, const struct bench *state);

/* With every limit as wide as it can be the run is another one: the plan refuses candidates. */
bool turns_by_plan(const struct load *load);

#endif
