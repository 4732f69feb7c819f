#include "bench.h"

#include <stddef.h>

#include "candidates.h"
#include "lamps.h"
#include "plan.h"

const struct progress *progress_of(const struct bench *state, unsigned row)
{
    return &state->rows[row - 1];
}

const struct window *open_window(const struct row *row, unsigned finished)
{
    for (unsigned at = 1; at <= row->window_count; at++) {
        const struct window *window = window_of(row, at);
        if (window->first <= finished && finished < window->last)
            return window;
    }
    return NULL;
}

static bool is_row_shaped(const struct row *row, const struct progress *progress, uint32_t clock)
{
    if (progress->finished > row->step_count || progress->end > clock)
        return false;
    if (progress->finished == 0 && progress->end != 0)
        return false;
    if (open_window(row, progress->finished) != NULL)
        return progress->opening <= progress->end;
    return progress->opening == 0;
}

static bool is_place_unused(const struct progress *progress)
{
    return progress->finished == 0 && progress->end == 0 && progress->opening == 0;
}

bool is_shaped(const struct load *load, const struct bench *state)
{
    if (state->clock > LAST_MOMENT)
        return false;
    bool shaped = true;
    for (unsigned row = 1; shaped && row <= MOST_ROWS; row++)
        shaped = row <= load->row_count
            ? is_row_shaped(row_of(load, row), progress_of(state, row), state->clock)
            : is_place_unused(progress_of(state, row));
    return shaped;
}

static bool is_all_finished(const struct load *load, const struct bench *state)
{
    for (unsigned row = 1; row <= load->row_count; row++)
        if (progress_of(state, row)->finished < row_of(load, row)->step_count)
            return false;
    return true;
}

/* The state at the slot's end. A window's first step opens it at the slot's start; its last
   step leaves no window open; any other step leaves the opening as it was. */
static struct bench with_step(const struct load *load, struct bench state, struct slot slot)
{
    const struct row *row = row_of(load, slot.row);
    struct progress *progress = &state.rows[slot.row - 1];
    state.clock = end_of(load, slot);
    progress->finished = slot.step;
    progress->end = state.clock;
    if (window_from(row, slot.step) != NULL)
        progress->opening = slot.start;
    if (open_window(row, slot.step) == NULL)
        progress->opening = 0;
    return state;
}

/* The first candidate that passes the plan, and no later one is tried. */
static bool find_start(const struct load *load, const struct bench *state, struct slot *found)
{
    struct slot candidates[MOST_ROWS];
    unsigned count = candidates_of(load, state, candidates);
    for (unsigned place = 0; place < count; place++) {
        struct bench at_end = with_step(load, *state, candidates[place]);
        if (passes_plan(load, &at_end)) {
            *found = candidates[place];
            return true;
        }
    }
    return false;
}

/* A move on a good load and a shaped state; the lamps are added by its caller. */
static struct move unlit_move_of(const struct load *load, struct bench state)
{
    struct slot slot;
    if (is_all_finished(load, &state))
        return (struct move){.outcome = DONE, .state = state};
    if (state.clock == LAST_MOMENT)
        return (struct move){.refusal = CLOCK_FULL, .state = state};
    if (find_start(load, &state, &slot))
        return (struct move){.outcome = START, .slot = slot,
                             .state = with_step(load, state, slot)};
    state.clock++;
    return (struct move){.outcome = IDLE, .state = state};
}

static struct move checked_move_of(const struct load *load, struct bench state)
{
    struct move move = unlit_move_of(load, state);
    if (move.refusal == ACCEPTED)
        move.lamps = lamps_of(load, &move.state);
    move.lamp_count = ones_of(move.lamps);
    return move;
}

struct move move_of(const struct load *load, struct bench state)
{
    enum refusal refusal = check_load(load);
    if (refusal == ACCEPTED && !is_shaped(load, &state))
        refusal = STATE_SHAPE;
    if (refusal != ACCEPTED)
        return (struct move){.refusal = refusal, .state = state};
    return checked_move_of(load, state);
}

/* Tick by tick: a first step refused now may pass a tick later, so no idle tick is skipped.
   The load is asked once; each state is handed on by the move before and has its shape. */
struct run run_of(const struct load *load)
{
    struct run run = {.refusal = check_load(load)};
    struct move move = {0};
    while (run.refusal == ACCEPTED && move.outcome != DONE) {
        move = checked_move_of(load, move.state);
        run.refusal = move.refusal;
        if (move.outcome == START) {
            run.slots[run.slot_count++] = move.slot;
            run.end = end_of(load, move.slot);
        }
    }
    return run.refusal == ACCEPTED ? run : (struct run){.refusal = run.refusal};
}
