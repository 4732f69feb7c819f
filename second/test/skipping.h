/* The mistake of skipping over idle ticks to the next release. */
#ifndef SKIPPING_H
#define SKIPPING_H

#include "bench.h"

/* The run of a bench that makes it. */
struct run skipping_run_of(const struct load *load);

/* Whether a good load's run is another then. */
bool shows_skipping(const struct load *load);

#endif
