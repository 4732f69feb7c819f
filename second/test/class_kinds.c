#include "class_kinds.h"

static struct load without_classes(struct load load)
{
    for (unsigned row = 1; row <= load.row_count; row++)
        load.rows[row - 1].class = 0;
    return load;
}

static void widen(struct row *row)
{
    for (unsigned window = 1; window <= row->window_count; window++)
        row->windows[window - 1].limit = UINT16_MAX;
}

static bool is_same_slot(const struct slot *one, const struct slot *other)
{
    return one->row == other->row && one->step == other->step && one->start == other->start;
}

static bool is_other_run(const struct load *one, const struct load *other)
{
    struct run run = run_of(one), other_run = run_of(other);
    bool same = run.slot_count == other_run.slot_count;
    for (unsigned place = 0; same && place < run.slot_count; place++)
        same = is_same_slot(&run.slots[place], &other_run.slots[place]);
    return !same;
}

bool turns_by_class(const struct load *load)
{
    struct load plain = without_classes(*load);
    return is_other_run(load, &plain);
}

bool moves_by_class(const struct load *load, const struct bench *state)
{
    struct load plain = without_classes(*load);
    struct move move = move_of(load, *state), plain_move = move_of(&plain, *state);
    return !is_same_slot(&move.slot, &plain_move.slot);
}

bool turns_by_plan(const struct load *load)
{
    struct load wide = *load;
    for (unsigned row = 1; row <= wide.row_count; row++)
        widen(&wide.rows[row - 1]);
    return is_other_run(load, &wide);
}
