/* Random loads of 24 rows of 8 steps, which take a plan the longest, and smaller ones; the same for
   the same dice on every machine. */
#ifndef FULL_LOAD_H
#define FULL_LOAD_H

#include "random_load.h"

enum kind {
    STAGGERED, /* a window over all steps in each row, and more room from row to row */
    WIDE,      /* one or two windows in each row, over most of its steps, with any room */
    TIGHT,     /* one to four windows in each row, with little room or none */
    MIXED,     /* none to four windows in a row, in any places and with any room */
    KINDS
};

extern const char *const KIND_NAMES[KINDS];

/* Dice of a seed below 2^32; no two seeds have the same. */
struct dice dice_of(uint64_t seed);

/* How large the numbers of a load may be: costs, waits, rooms of windows beyond their chains, and
   phases. */
struct most {
    uint32_t cost, wait, room, phase;
};

/* A good load of that kind, with so many rows and steps, deadlines 1,000,000, and class 0. */
struct load load_of_kind(struct dice *dice, enum kind kind, unsigned rows, unsigned steps,
                         const struct most *most);

/* Gives a row so many windows in any places, at most half as many as it has steps, each with some
   room. */
void place_windows(struct dice *dice, struct row *row, unsigned windows, uint32_t most_room);

/* Sets a window's limit to its chain and that room, or to the loosest there is. */
void give_room(const struct row *row, struct window *window, uint32_t room);

/* Prints a load's rows in the notation of benchmarks/rows, whether it is refused or not, without
   class and head. */
void print_rows(const struct load *load);

#endif
