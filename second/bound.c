#include "bound.h"

/* How many steps of a row the cut at m keeps. */
static unsigned kept_steps(const struct row *row, unsigned m)
{
    unsigned kept = row->step_count < m ? row->step_count : m;
    while (kept < row->step_count && is_embedded(row, kept + 1))
        kept++;
    return kept;
}

/* A window is kept whole or not at all, since the embedded steps after a kept one stay.
   Dropped places are zeroed: the cut load is a load too. */
static struct row cut_row(const struct row *row, unsigned m)
{
    struct row cut = *row;
    cut.step_count = (uint8_t)kept_steps(row, m);
    for (unsigned step = cut.step_count + 1u; step <= MOST_STEPS; step++)
        cut.steps[step - 1] = (struct step){0, 0};
    cut.steps[cut.step_count - 1].wait = 0;
    while (cut.window_count > 0 && window_of(row, cut.window_count)->first > cut.step_count) {
        cut.window_count--;
        cut.windows[cut.window_count] = (struct window){0, 0, 0};
    }
    return cut;
}

struct load cut_load(const struct load *load, unsigned m)
{
    struct load cut = *load;
    for (unsigned row = 1; row <= load->row_count; row++)
        cut.rows[row - 1] = cut_row(row_of(load, row), m);
    return cut;
}

static uint32_t costs_of_row(const struct row *row)
{
    uint32_t costs = 0;
    for (unsigned step = 1; step <= row->step_count; step++)
        costs += step_of(row, step)->cost;
    return costs;
}

/* A wait is embedded as the step after it is. */
static uint32_t embedded_waits_of_row(const struct row *row)
{
    uint32_t waits = 0;
    for (unsigned step = 1; step < row->step_count; step++)
        if (is_embedded(row, step + 1))
            waits += step_of(row, step)->wait;
    return waits;
}

uint32_t all_costs(const struct load *load)
{
    uint32_t costs = 0;
    for (unsigned row = 1; row <= load->row_count; row++)
        costs += costs_of_row(row_of(load, row));
    return costs;
}

uint32_t all_embedded_waits(const struct load *load)
{
    uint32_t waits = 0;
    for (unsigned row = 1; row <= load->row_count; row++)
        waits += embedded_waits_of_row(row_of(load, row));
    return waits;
}

uint32_t largest_phase(const struct load *load)
{
    uint32_t largest = 0;
    for (unsigned row = 1; row <= load->row_count; row++)
        if (row_of(load, row)->phase > largest)
            largest = row_of(load, row)->phase;
    return largest;
}

static uint32_t all_largest_w(const struct load *load)
{
    uint32_t sum = 0;
    for (unsigned j = 1; j <= MOST_PLACES; j++)
        sum += largest_w(load, j).w;
    return sum;
}

static uint32_t four_terms(const struct load *load)
{
    return all_costs(load) + largest_phase(load) + all_embedded_waits(load) + all_largest_w(load);
}

enum refusal bound_of(const struct load *load, uint32_t *bound)
{
    enum refusal refusal = check_load(load);
    *bound = refusal == ACCEPTED ? four_terms(load) : 0;
    return refusal;
}

/* The load as it is cut for a row: at that row's own steps. */
static struct load cut_for(const struct load *load, unsigned row)
{
    return cut_load(load, row_of(load, row)->step_count);
}

static uint32_t row_bound(const struct load *load, unsigned row)
{
    struct load cut = cut_for(load, row);
    return four_terms(&cut);
}

enum refusal row_bounds_of(const struct load *load, uint32_t bounds[MOST_ROWS])
{
    enum refusal refusal = check_load(load);
    for (unsigned row = 1; row <= MOST_ROWS; row++) {
        bool there = refusal == ACCEPTED && row <= load->row_count;
        bounds[row - 1] = there ? row_bound(load, row) : 0;
    }
    return refusal;
}

/* Rows not there have deadline 0 and row bound 0, so their margin is 0 by itself. */
enum refusal margins_of(const struct load *load, int32_t margins[MOST_ROWS])
{
    uint32_t bounds[MOST_ROWS];
    enum refusal refusal = row_bounds_of(load, bounds);
    for (unsigned row = 1; row <= MOST_ROWS; row++) {
        int32_t deadline = refusal == ACCEPTED ? (int32_t)row_of(load, row)->deadline : 0;
        margins[row - 1] = deadline - (int32_t)bounds[row - 1];
    }
    return refusal;
}

enum refusal places_of(const struct load *load, struct place_w places[MOST_PLACES])
{
    enum refusal refusal = check_load(load);
    for (unsigned j = 1; j <= MOST_PLACES; j++)
        places[j - 1] = refusal == ACCEPTED ? largest_w(load, j) : (struct place_w){0, 0};
    return refusal;
}

/* The cut drops no row, so that a row has its number in the cut load too. */
static struct blame row_blame(const struct load *load, unsigned row)
{
    struct load cut = cut_for(load, row);
    return blame_of(&cut);
}

enum refusal blames_of(const struct load *load, struct blame blames[MOST_ROWS])
{
    enum refusal refusal = check_load(load);
    for (unsigned row = 1; row <= MOST_ROWS; row++) {
        bool there = refusal == ACCEPTED && row <= load->row_count;
        blames[row - 1] = there ? row_blame(load, row) : (struct blame){0, 0};
    }
    return refusal;
}

enum refusal verdict_of(const struct load *load, bool *yes)
{
    int32_t margins[MOST_ROWS];
    enum refusal refusal = margins_of(load, margins);
    *yes = refusal == ACCEPTED;
    for (unsigned row = 1; row <= MOST_ROWS; row++)
        *yes = *yes && margins[row - 1] >= 0;
    return refusal;
}
