#include "skipping.h"

/* When the row's next step is ready. */
static uint32_t release_of(const struct row *row, const struct progress *progress)
{
    return progress->finished == 0
        ? row->phase : progress->end + step_of(row, progress->finished)->wait;
}

/* The first release after the clock; the next tick, if there is none. */
static uint32_t next_release(const struct load *load, const struct bench *state)
{
    uint32_t next = LAST_MOMENT + 1;
    for (unsigned row = 1; row <= load->row_count; row++) {
        uint32_t release = release_of(row_of(load, row), progress_of(state, row));
        if (progress_of(state, row)->finished < row_of(load, row)->step_count
            && release > state->clock && release < next)
            next = release;
    }
    return next > LAST_MOMENT ? state->clock + 1 : next;
}

struct run skipping_run_of(const struct load *load)
{
    struct run run = {0};
    struct move move = {0};
    while (run.refusal == ACCEPTED && move.outcome != DONE) {
        struct bench given = move.state;
        move = move_of(load, given);
        run.refusal = move.refusal;
        if (move.outcome == IDLE)
            move.state.clock = next_release(load, &given);
        if (move.outcome == START)
            run.slots[run.slot_count++] = move.slot;
    }
    return run;
}

static bool is_same_run(const struct run *one, const struct run *other)
{
    bool same = one->refusal == other->refusal && one->slot_count == other->slot_count;
    for (unsigned place = 0; same && place < one->slot_count; place++)
        same = one->slots[place].row == other->slots[place].row
            && one->slots[place].step == other->slots[place].step
            && one->slots[place].start == other->slots[place].start;
    return same;
}

bool shows_skipping(const struct load *load)
{
    if (check_load(load) != ACCEPTED)
        return false;
    struct run run = run_of(load);
    struct run skipping = skipping_run_of(load);
    return !is_same_run(&run, &skipping);
}
