/* A load held in memory, its check (3 to 7 and 21), and what is asked of a row: embedded, free,
   chain.
   Rows, steps and windows are numbered from 1 in every call, as the document numbers them. */
#ifndef LOAD_H
#define LOAD_H

#include <stdbool.h>
#include <stdint.h>

#include "numbers.h"

enum {
    MOST_ROWS = 24,
    MOST_STEPS = 8,
    MOST_WINDOWS = 4,
    MOST_PHASE = 86400,
    MOST_DEADLINE = 1000000,
    MOST_COST = 600,
    MOST_WAIT = 3600,
    MOST_CLASS = 3,
    ONLY_HEAD = 1,
    LAST_MOMENT = 1000000
};

/* The identifier that loggers report after a battery swap (2026-04). It is in its range, but is
   refused even when alone: two of them, of different days, would meet in the archive. */
static const uint32_t FACTORY_NUMBER = UINT32_MAX;

/* The two registers are separate: a type each, so that one cannot stand for the other. */
struct identifier {
    uint32_t number;
};

struct box {
    uint32_t number;
};

struct step {
    uint16_t cost;
    uint16_t wait;
};

struct window {
    uint8_t first;
    uint8_t last;
    uint16_t limit;
};

/* Class and head are those of 2026-05: the higher class goes first among equals, and there is one
   reader head so far. */
struct row {
    struct identifier identifier;
    struct box box;
    uint32_t phase;
    uint32_t deadline;
    uint8_t step_count;
    uint8_t window_count;
    uint8_t class;
    uint8_t head;
    struct step steps[MOST_STEPS];
    struct window windows[MOST_WINDOWS];
};

struct load {
    uint8_t row_count;
    struct row rows[MOST_ROWS];
};

const struct row *row_of(const struct load *load, unsigned row);
const struct step *step_of(const struct row *row, unsigned step);
const struct window *window_of(const struct row *row, unsigned window);

/* Steps in the whole load. */
unsigned steps_of(const struct load *load);

/* In a window, but not its first. */
bool is_embedded(const struct row *row, unsigned step);

/* There, and not embedded. */
bool is_free(const struct row *row, unsigned step);

/* The window that has this as its first (last) step, or null. */
const struct window *window_from(const struct row *row, unsigned step);
const struct window *window_to(const struct row *row, unsigned step);

/* All costs of the window and the waits between them. */
uint32_t chain_of(const struct row *row, const struct window *window);

/* One record's own questions, given the records before it: a row asks 3, 21, 4, 5, a step
   3, a window 3, 6, 7. Reading a file and checking a load put the same questions. */
enum refusal check_row_record(const struct load *load, unsigned row);
enum refusal check_step_record(const struct row *row, unsigned step);
enum refusal check_window_record(const struct row *row, unsigned window);

/* The whole load: 3 to 7 and 21 in row order, unused places after the used ones of their list. */
enum refusal check_load(const struct load *load);

#endif
