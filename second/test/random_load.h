/* Random loads, the same for the same seed on every machine. No two throws stand in one
   expression unless C fixes which comes first. */
#ifndef RANDOM_LOAD_H
#define RANDOM_LOAD_H

#include "bench.h"

enum { ALL_SIZES = 10, QUICK_SIZES = 8, SMALL_SIZES = 5 };

struct dice {
    uint64_t state;
};

uint32_t throw_dice(struct dice *dice);
uint32_t between(struct dice *dice, uint32_t least, uint32_t most);

/* A good load of one of the first `among` sizes, with deadlines 1,000,000 and class 0. The first 8
   are quick to run, the first 5 have few rows. */
struct load any_load(struct dice *dice, unsigned among);

/* A good load of so many rows, each with so many steps and windows; small numbers, and class 0.
   There are at most half as many windows as steps. */
struct load load_with(struct dice *dice, unsigned rows, unsigned steps, unsigned windows);

/* Any class in each row. */
void set_classes(struct dice *dice, struct load *load);

/* Deadlines near the row bounds: a third of them just at it, the rest on either side. */
void set_deadlines(struct dice *dice, struct load *load, const uint32_t *bounds);

/* One field of a used place gets a number that is often wrong. Counts stay, so that the
   records stay whole. */
void spoil(struct dice *dice, struct load *load);

/* A state that mostly has the load's shape, whether or not moves from fresh lead to it. */
struct bench any_state(struct dice *dice, const struct load *load);

/* A shaped state whose open windows can just be kept, or just not. */
struct bench tight_state(struct dice *dice, const struct load *load);

#endif
