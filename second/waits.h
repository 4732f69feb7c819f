/* The free waits of a good load: W, the largest at each place, and which of them is to blame. */
#ifndef WAITS_H
#define WAITS_H

#include "load.h"

/* A place j lies between steps j and j+1. */
enum { MOST_PLACES = MOST_STEPS - 1 };

/* The largest W at a place and the lowest row that has it; 0 and 0 where no W is above 0. */
struct place_w {
    uint32_t w;
    unsigned row;
};

/* The lowest place with the largest W of all, and its row; 0 and 0 where no W is above 0. */
struct blame {
    unsigned place;
    unsigned row;
};

/* Asked of row i at place j, from 1, where its wait is free. */
uint32_t w_of(const struct load *load, unsigned i, unsigned j);

struct place_w largest_w(const struct load *load, unsigned j);
struct blame blame_of(const struct load *load);

#endif
