/* One move of the bench, and the run of such moves from fresh to Done.
   The bench is given by value and handed back by value: what was given stays as it was. */
#ifndef BENCH_H
#define BENCH_H

#include "load.h"

enum { MOST_SLOTS = MOST_ROWS * MOST_STEPS };

/* Per row: the steps finished, the moment the last of them ended, and the start of an open
   window's first step. */
struct progress {
    uint8_t finished;
    uint32_t end;
    uint32_t opening;
};

/* Fresh is all zero. */
struct bench {
    uint32_t clock;
    struct progress rows[MOST_ROWS];
};

struct slot {
    uint8_t row;
    uint8_t step;
    uint32_t start;
};

enum outcome { NO_MOVE, START, IDLE, DONE };

/* `slot` is all zero unless the outcome is START. A refused move (3 to 7 or 21, 10, 11) has outcome
   NO_MOVE, the state it was given, and lamp word and count 0. */
struct move {
    enum refusal refusal;
    enum outcome outcome;
    struct slot slot;
    struct bench state;
    uint32_t lamps;
    uint32_t lamp_count;
};

/* A refused run has no slots and end 0; places past the last slot are zero. */
struct run {
    enum refusal refusal;
    uint32_t end;
    unsigned slot_count;
    struct slot slots[MOST_SLOTS];
};

const struct progress *progress_of(const struct bench *state, unsigned row);

/* The window that is open in a row with so many steps finished, or null. */
const struct window *open_window(const struct row *row, unsigned finished);

/* Whether the state has the load's shape. */
bool is_shaped(const struct load *load, const struct bench *state);

struct move move_of(const struct load *load, struct bench state);
struct run run_of(const struct load *load);

#endif
