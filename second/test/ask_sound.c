/* Sound loads of every size, asked whole; and the edges of the margins. */
#include "bound.h"
#include "load_file.h"
#include "questions.h"
#include "skipping.h"

enum { MOST_PLAYED = 40, LOADS_OF_ROWS = 8, LOADS_OF_STEPS = 5, ANY_LOADS = 330,
       SKIPPING_LOADS = 70, LARGE_SKIPPING_LOADS = 15 };

/* The moves from fresh, the last of them Done or the 40th. */
static void ask_first_moves(struct asking *asking, const struct asked_file *file,
                            const struct load *load)
{
    struct move move = {0};
    for (unsigned played = 0; played < MOST_PLAYED && move.outcome != DONE; played++) {
        ask_move(asking, file, &move.state);
        move = move_of(load, move.state);
    }
}

void ask_all_of_file(struct asking *asking, const struct asked_file *file)
{
    struct load load;
    struct bench fresh = {0};
    enum refusal refusal = read_load(file->bytes, file->length, &load);
    struct asked_slots list = slots_of(&load);
    ask_report(asking, file);
    ask_check(asking, file, &list);
    if (refusal != ACCEPTED) {
        ask_move(asking, file, &fresh);
        return;
    }
    ask_first_moves(asking, file, &load);
    ask_load(asking, &load);
    ask_schedule(asking, &list);
}

static void ask_load_file(struct asking *asking, struct load load)
{
    uint32_t bounds[MOST_ROWS];
    row_bounds_of(&load, bounds);
    set_deadlines(&asking->dice, &load, bounds);
    struct asked_file file = file_of(&load);
    struct asked_slots list = slots_of(&load);
    ask_report(asking, &file);
    if (throw_dice(&asking->dice) % 3 == 0)
        ask_check(asking, &file, &list);
}

/* 0 to 24 rows; the more rows, the fewer steps, save for one load. */
static void ask_row_counts(struct asking *asking)
{
    for (unsigned rows = 0; rows <= MOST_ROWS; rows++)
        for (unsigned times = 0; times < LOADS_OF_ROWS; times++) {
            uint32_t steps = between(&asking->dice, 1, rows > 6 && times > 0 ? 3 : MOST_STEPS);
            uint32_t windows = between(&asking->dice, 0, steps / 2);
            ask_load_file(asking, load_with(&asking->dice, rows, steps, windows));
        }
}

/* 1 to 8 steps with each count of windows that they can hold. */
static void ask_step_counts(struct asking *asking)
{
    for (unsigned steps = 1; steps <= MOST_STEPS; steps++)
        for (unsigned windows = 0; windows <= steps / 2; windows++)
            for (unsigned times = 0; times < LOADS_OF_STEPS; times++) {
                uint32_t rows = between(&asking->dice, 1, 4);
                ask_load_file(asking, load_with(&asking->dice, rows, steps, windows));
            }
}

/* 24 rows of 8 steps, costs 600 and waits 3,600, all in one window, the largest phase: the bound
   is 806,400. With a wide limit the windows run side by side and the run is short. */
static struct load largest_load(uint32_t deadline)
{
    struct load load = {.row_count = MOST_ROWS};
    for (unsigned row = 1; row <= MOST_ROWS; row++) {
        struct row *place = &load.rows[row - 1];
        *place = (struct row){{UINT32_MAX - row}, {row}, MOST_PHASE, deadline, MOST_STEPS, 1, 0, 1,
                              {{0, 0}}, {{1, MOST_STEPS, UINT16_MAX}}};
        for (unsigned step = 1; step <= MOST_STEPS; step++)
            place->steps[step - 1]
                = (struct step){MOST_COST, step < MOST_STEPS ? MOST_WAIT : 0};
    }
    return load;
}

static void ask_margin(struct asking *asking, struct load load, uint32_t deadline)
{
    for (unsigned row = 1; row <= load.row_count; row++)
        load.rows[row - 1].deadline = deadline;
    struct asked_file file = file_of(&load);
    ask_report(asking, &file);
}

/* Margins at -806,399 and 999,999, and at 1, 0, -1. */
static void ask_margins(struct asking *asking)
{
    struct load least = {1, {{{1}, {1}, 0, 1, 1, 0, 0, 1, {{1, 0}}, {{0, 0, 0}}}}};
    ask_margin(asking, largest_load(1), 1);
    ask_margin(asking, least, MOST_DEADLINE);
    for (unsigned times = 0; times < 24; times++) {
        uint32_t bound;
        struct load load = any_load(&asking->dice, SMALL_SIZES);
        bound_of(&load, &bound);
        for (uint32_t deadline = bound - (bound > 1); deadline <= bound + 1; deadline++)
            ask_margin(asking, load, deadline);
    }
}

/* Loads on which skipping over idle ticks to the next release shows; the first step costs at
   least so much, which leaves the sizes with large numbers. */
static void ask_skipping(struct asking *asking, unsigned count, unsigned cost)
{
    for (unsigned found = 0; found < count;) {
        struct load load = any_load(&asking->dice, cost > 1 ? ALL_SIZES : SMALL_SIZES + 1);
        if (load.rows[0].steps[0].cost < cost || !shows_skipping(&load))
            continue;
        ask_load_file(asking, load);
        found++;
    }
}

void ask_sound_loads(struct asking *asking)
{
    ask_row_counts(asking);
    ask_step_counts(asking);
    ask_margins(asking);
    ask_skipping(asking, SKIPPING_LOADS, 1);
    ask_skipping(asking, LARGE_SKIPPING_LOADS, 20);
    for (unsigned times = 0; times < ANY_LOADS; times++)
        ask_load_file(asking, any_load(&asking->dice, times % 30 == 0 ? ALL_SIZES : QUICK_SIZES));
    struct load full = load_with(&asking->dice, MOST_ROWS, MOST_STEPS, MOST_WINDOWS);
    struct asked_file file = file_of(&full);
    struct asked_slots list = slots_of(&full);
    ask_report(asking, &file);
    ask_check(asking, &file, &list);
    ask_load(asking, &full);
    ask_schedule(asking, &list);
}
