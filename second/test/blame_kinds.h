/* Good loads on which a wrong rule for blames shows. Each asks for some row whose cut load does
   it. */
#ifndef BLAME_KINDS_H
#define BLAME_KINDS_H

#include "bound.h"

/* The blamed W is that of two rows at its place. */
bool ties_rows(const struct load *load);

/* The blamed W is that of two places. */
bool ties_places(const struct load *load);

/* Something is blamed, and it is not what the load with nothing cut would blame. */
bool turns_by_cut(const struct load *load);

/* Nothing is blamed, though a free wait is all but larger than what the other rows give. */
bool is_just_outweighed(const struct load *load);

#endif
