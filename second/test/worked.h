/* Loads with blames worked by hand, for the cases and for the trials. */
#ifndef WORKED_H
#define WORKED_H

#include "bound.h"

enum { WORKED_ROWS = 3, WORKED_LOADS = 10 };

/* Places and rows that are not written have 0 and 0. */
struct worked {
    const char *name;
    struct load load;
    struct place_w places[MOST_PLACES];
    int32_t margins[WORKED_ROWS];
    struct blame blames[WORKED_ROWS];
};

extern const struct worked WORKED[WORKED_LOADS];

#endif
