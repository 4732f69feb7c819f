/* Faults that lie between records: twins of identifiers and boxes (4, 5), windows against steps and
   against each other (6), limits against chains (7); as files, some as loads in memory too. */
#include "questions.h"

enum { MEMORY_EVERY = 9 };

/* Every load is asked as a file, one in nine in memory too: those questions are long. */
static void ask_both(struct asking *asking, const struct load *load)
{
    struct asked_file file = file_of(load);
    ask_report(asking, &file);
    if (asking->asked['F'] % MEMORY_EVERY == 0)
        ask_load(asking, load);
}

static void ask_pair(struct asking *asking, const struct load *load, unsigned one, unsigned other)
{
    struct load twins = *load;
    struct row *row = &twins.rows[other - 1];
    row->identifier.number = row_of(load, one)->box.number;
    row->box.number = row_of(load, one)->identifier.number;
    ask_both(asking, &twins);
    row->identifier = row_of(load, one)->identifier;
    ask_both(asking, &twins);
    row->box = row_of(load, one)->box;
    ask_both(asking, &twins);
    row->identifier = row_of(load, other)->identifier;
    ask_both(asking, &twins);
    row->steps[0].cost = 0;
    ask_both(asking, &twins);
    row->deadline = 0;
    ask_both(asking, &twins);
}

static void ask_pairs(struct asking *asking, unsigned rows)
{
    struct load load = load_with(&asking->dice, rows, 1, 0);
    for (unsigned one = 1; one <= rows; one++)
        for (unsigned other = one + 1; other <= rows; other++)
            if (rows < 6 || (one % 11 == 1 && (other == rows || other == one + 1)))
                ask_pair(asking, &load, one, other);
}

/* Limits of 1, chain less 1, chain, and chain plus 1, for each window. */
static void ask_limits(struct asking *asking, const struct load *load, unsigned row,
                       unsigned window)
{
    struct load changed = *load;
    struct window *place = &changed.rows[row - 1].windows[window - 1];
    uint32_t chain = chain_of(row_of(load, row), place);
    for (uint32_t limit = chain - 1; limit <= chain + 1; limit++) {
        place->limit = (uint16_t)limit;
        ask_both(asking, &changed);
    }
    place->last = place->first;
    place->limit = 1;
    ask_both(asking, &changed);
}

static void ask_every_limit(struct asking *asking)
{
    for (unsigned times = 0; times < 10; times++) {
        struct load load = load_with(&asking->dice, 2, 8 - times % 4, 2 + times % 2);
        for (unsigned row = 1; row <= load.row_count; row++)
            for (unsigned window = 1; window <= load.rows[row - 1].window_count; window++)
                ask_limits(asking, &load, row, window);
    }
}

/* Two windows over four steps, at all firsts and lasts from 0 to 5; the limits pass every chain. */
static void ask_window_steps(struct asking *asking)
{
    struct load load = {1, {{{7}, {8}, 0, 1000000, 4, 2, 0, 1,
                             {{1, 2}, {3, 4}, {5, 6}, {7, 0}}, {{1, 2, 99}, {3, 4, 99}}}}};
    for (unsigned code = 0; code < 36; code++) {
        struct load changed = load;
        changed.rows[0].windows[1].first = (uint8_t)(code % 6);
        changed.rows[0].windows[1].last = (uint8_t)(code / 6);
        ask_both(asking, &changed);
        changed.rows[0].windows[1] = load.rows[0].windows[1];
        changed.rows[0].windows[0].first = (uint8_t)(code % 6);
        changed.rows[0].windows[0].last = (uint8_t)(code / 6);
        ask_both(asking, &changed);
    }
}

/* The largest chain there is fits its limit, and so does the largest limit. */
static void ask_largest_chain(struct asking *asking)
{
    struct load load = {1, {{{1}, {1}, 0, 1000000, 8, 1, 0, 1,
                             {{600, 3600}, {600, 3600}, {600, 3600}, {600, 3600},
                              {600, 3600}, {600, 3600}, {600, 3600}, {600, 0}},
                             {{1, 8, 29999}}}}};
    for (unsigned limit = 29999; limit <= 30001; limit++) {
        load.rows[0].windows[0].limit = (uint16_t)limit;
        ask_both(asking, &load);
    }
    load.rows[0].windows[0].limit = UINT16_MAX;
    ask_both(asking, &load);
}

void ask_twins(struct asking *asking)
{
    ask_pairs(asking, 4);
    ask_pairs(asking, MOST_ROWS);
    ask_every_limit(asking);
    ask_window_steps(asking);
    ask_largest_chain(asking);
}
