#include "random_load.h"

#include <stddef.h>

struct bench any_state(struct dice *dice, const struct load *load)
{
    static const uint32_t clocks[] = {0, 9, 60, 700, 999990, 1000000, 1000001};
    struct bench state = {.clock = clocks[throw_dice(dice) % 7]};
    for (unsigned row = 1; row <= load->row_count; row++) {
        struct progress *progress = &state.rows[row - 1];
        progress->finished = (uint8_t)between(dice, 0, row_of(load, row)->step_count);
        uint32_t since = between(dice, 0, state.clock < 90 ? state.clock : 90);
        progress->end = progress->finished == 0 ? 0 : state.clock - since;
        if (open_window(row_of(load, row), progress->finished) != NULL)
            progress->opening = progress->end - (progress->end < 9 ? 0 : between(dice, 1, 9));
    }
    if (throw_dice(dice) % 8 == 0) {
        struct progress *any = &state.rows[throw_dice(dice) % MOST_ROWS];
        any->opening = between(dice, 0, 99);
    }
    return state;
}

/* Costs and waits from the next step to the end of the row's open window. */
static uint32_t rest_of_window(const struct row *row, unsigned finished)
{
    const struct window *window = open_window(row, finished);
    uint32_t rest = 0;
    for (unsigned step = finished + 1; window != NULL && step <= window->last; step++)
        rest += step_of(row, step)->cost + (step == finished + 1
                                            ? 0u : (uint32_t)step_of(row, step - 1)->wait);
    return rest;
}

/* Inside a window as often as not, where the row has one. */
static unsigned any_finished(struct dice *dice, const struct row *row)
{
    if (row->window_count == 0 || throw_dice(dice) % 3 == 0)
        return between(dice, 0, row->step_count);
    const struct window *window = &row->windows[throw_dice(dice) % row->window_count];
    return between(dice, window->first, window->last - 1u);
}

/* Each open window is due near the moment when it and those of the rows before it are finished,
   which is near what the stack needs when dues rise with the rows. */
struct bench tight_state(struct dice *dice, const struct load *load)
{
    struct bench state = {.clock = between(dice, 30, 400)};
    uint32_t finish = state.clock;
    for (unsigned row = 1; row <= load->row_count; row++) {
        struct progress *progress = &state.rows[row - 1];
        progress->finished = (uint8_t)any_finished(dice, row_of(load, row));
        if (progress->finished == 0)
            continue;
        progress->end = state.clock - between(dice, 0, 14);
        const struct window *window = open_window(row_of(load, row), progress->finished);
        if (window == NULL)
            continue;
        finish += rest_of_window(row_of(load, row), progress->finished);
        uint32_t due = finish + between(dice, 0, 9);
        progress->opening = due > window->limit ? due - window->limit : 0;
        if (progress->opening > progress->end)
            progress->opening = progress->end;
    }
    return state;
}
