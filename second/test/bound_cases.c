/* Bounds worked by hand. */
#include "bound.h"
#include "cases.h"

/* Bounds worked by hand. "No step j+1": 1 w9 1 / 5 gives 7 + 9. "Window cut in two": row 2 with
   one step keeps both steps of row 1's window and drops its third. */
static void row_bound_cases(struct tally *tally)
{
    uint32_t bounds[MOST_ROWS];
    struct load alone = {2, {
        {{101}, {201}, 0, 1000000, 2, 0, 0, 1, {{1, 9}, {1, 0}}, {{0, 0, 0}}},
        {{102}, {202}, 0, 1000000, 1, 0, 0, 1, {{5, 0}}, {{0, 0, 0}}},
    }};
    row_bounds_of(&alone, bounds);
    same(tally, "no step j+1", 16, (long)bounds[0]);
    same(tally, "cut to one step", 6, (long)bounds[1]);
    struct load window = {2, {
        {{101}, {201}, 0, 1000000, 3, 1, 0, 1, {{1, 4}, {2, 50}, {7, 0}}, {{1, 2, 9}}},
        {{102}, {202}, 3, 1000000, 1, 0, 0, 1, {{5, 0}}, {{0, 0, 0}}},
    }};
    row_bounds_of(&window, bounds);
    same(tally, "whole: 15 costs, phase 3, embedded 4, W 50", 72, (long)bounds[0]);
    same(tally, "cut: 8 costs, phase 3, embedded 4", 15, (long)bounds[1]);
    window.rows[0].windows[0].limit = 6;
    same(tally, "refused bounds", 7, row_bounds_of(&window, bounds));
    same(tally, "refused bounds are 0", 0, (long)bounds[0]);
}

/* 4 w3 9 w9 9 (window 1 to 2) / 1 w5 1 w20 1: at place 2 row 1's step 2 is embedded, so it gives
   row 2 no costs and W is 20; row 1's own wait there is free, less row 2's smaller cost 1. */
static void embedded_place_cases(struct tally *tally)
{
    uint32_t bound;
    struct load load = {2, {
        {{101}, {201}, 0, 1000000, 3, 1, 0, 1, {{4, 3}, {9, 9}, {9, 0}}, {{1, 2, 30}}},
        {{102}, {202}, 0, 1000000, 3, 0, 0, 1, {{1, 5}, {1, 20}, {1, 0}}, {{0, 0, 0}}},
    }};
    bound_of(&load, &bound);
    same(tally, "25 costs, embedded 3, W 5 and 20", 53, (long)bound);
    load.rows[0].steps[1].wait = 40;
    bound_of(&load, &bound);
    same(tally, "25 costs, embedded 3, W 5 and 40 - 1", 72, (long)bound);
}

/* 1 w9 1 / 1 w8 1 / 2 w0 6 / 6 w0 2: row 1's others give 1, 1, 2, 6, 6, 2, and the three smallest
   are 4. The smaller of each pair would be 1, 2 and 2. */
static void smallest_costs_cases(struct tally *tally)
{
    uint32_t bound;
    struct load load = {4, {
        {{101}, {201}, 0, 1000000, 2, 0, 0, 1, {{1, 9}, {1, 0}}, {{0, 0, 0}}},
        {{102}, {202}, 0, 1000000, 2, 0, 0, 1, {{1, 8}, {1, 0}}, {{0, 0, 0}}},
        {{103}, {203}, 0, 1000000, 2, 0, 0, 1, {{2, 0}, {6, 0}}, {{0, 0, 0}}},
        {{104}, {204}, 0, 1000000, 2, 0, 0, 1, {{6, 0}, {2, 0}}, {{0, 0, 0}}},
    }};
    bound_of(&load, &bound);
    same(tally, "20 costs, W 9 - 4", 25, (long)bound);
}

/* 1 w4 2 w50 7 (window 1 to 2) cut to one step: its window stays whole, and no wait follows. */
static void cut_cases(struct tally *tally)
{
    struct load load = {1, {
        {{101}, {201}, 0, 1000000, 3, 1, 0, 1, {{1, 4}, {2, 50}, {7, 0}}, {{1, 2, 9}}},
    }};
    struct load cut = cut_load(&load, 1);
    same(tally, "steps kept", 2, cut.rows[0].step_count);
    same(tally, "wait dropped", 0, cut.rows[0].steps[1].wait);
    same(tally, "the cut load is a load", 0, check_load(&cut));
}

/* 24 rows of 8 steps, costs 600 and waits 3,600, all in one window: 115,200 costs, phase 86,400
   and 604,800 embedded waits are the most that a bound can be. */
static struct load largest_load(void)
{
    struct load load = {.row_count = MOST_ROWS};
    for (unsigned row = 1; row <= MOST_ROWS; row++) {
        struct row *place = &load.rows[row - 1];
        *place = (struct row){{row}, {row}, 86400, 1, 8, 1, 0, 1, {{0, 0}}, {{1, 8, 30000}}};
        for (unsigned step = 1; step <= MOST_STEPS; step++)
            place->steps[step - 1] = (struct step){600, step < MOST_STEPS ? 3600 : 0};
    }
    return load;
}

static void edge_cases(struct tally *tally)
{
    uint32_t bound;
    int32_t margins[MOST_ROWS];
    struct load load = largest_load();
    bound_of(&load, &bound);
    margins_of(&load, margins);
    same(tally, "largest bound", 806400, (long)bound);
    same(tally, "lowest margin", -806399, margins[23]);
    struct load least = {1, {{{1}, {1}, 0, 1000000, 1, 0, 0, 1, {{1, 0}}, {{0, 0, 0}}}}};
    margins_of(&least, margins);
    same(tally, "highest margin", 999999, margins[0]);
    same(tally, "margin of a row not there", 0, margins[1]);
}

void bound_cases(struct tally *tally)
{
    edge_cases(tally);
    row_bound_cases(tally);
    embedded_place_cases(tally);
    smallest_costs_cases(tally);
    cut_cases(tally);
}
