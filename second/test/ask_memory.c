/* Loads held in memory, with unused places that are not zero; and lists of slots to be written. */
#include <stddef.h>

#include "questions.h"

enum { MEMORY_LOADS = 30, MEMORY_SPOILED = 60 };

/* Each line makes one place of a load other than it was. */
#define MADE(place) \
    do { \
        struct load l = *load; \
        place; \
        ask_load(asking, &l); \
    } while (0)

static void ask_unused_steps(struct asking *asking, const struct load *load, unsigned row)
{
    struct row *r = NULL;
    unsigned used = row_of(load, row)->step_count;
    MADE((r = &l.rows[row - 1], r->steps[used].cost = 1));
    MADE((r = &l.rows[row - 1], r->steps[used].wait = 1));
    MADE((r = &l.rows[row - 1], r->steps[MOST_STEPS - 1].cost = UINT16_MAX));
    MADE((r = &l.rows[row - 1], r->steps[MOST_STEPS - 1].wait = 256));
}

static void ask_unused_windows(struct asking *asking, const struct load *load, unsigned row)
{
    struct row *r = NULL;
    unsigned used = row_of(load, row)->window_count;
    MADE((r = &l.rows[row - 1], r->windows[used].first = 1));
    MADE((r = &l.rows[row - 1], r->windows[used].last = 1));
    MADE((r = &l.rows[row - 1], r->windows[used].limit = 1));
    MADE((r = &l.rows[row - 1], r->windows[MOST_WINDOWS - 1].first = UINT8_MAX));
    MADE((r = &l.rows[row - 1], r->windows[MOST_WINDOWS - 1].last = 128));
    MADE((r = &l.rows[row - 1], r->windows[MOST_WINDOWS - 1].limit = 256));
}

static void ask_unused_row(struct asking *asking, const struct load *load, unsigned row)
{
    MADE(l.rows[row - 1].identifier.number = 1);
    MADE(l.rows[row - 1].box.number = 1u << 31);
    MADE(l.rows[row - 1].phase = 1);
    MADE(l.rows[row - 1].deadline = 1);
    MADE(l.rows[row - 1].step_count = 1);
    MADE(l.rows[row - 1].window_count = 1);
    MADE(l.rows[row - 1] = l.rows[0]);
}

/* Counts that do not fit their places, and the order in which two faults are met. */
static void ask_counts_and_orders(struct asking *asking, const struct load *load)
{
    MADE(l.rows[0].step_count = 0);
    MADE(l.rows[0].step_count = 9);
    MADE(l.rows[0].step_count = UINT8_MAX);
    MADE(l.rows[0].window_count = 5);
    MADE(l.rows[0].window_count = UINT8_MAX);
    MADE((l.rows[0].step_count = 9, l.rows[0].windows[0].limit = 1));
    MADE(l.rows[0].window_count = 0);
    MADE(l.rows[0].step_count = 1);
    MADE((l.rows[0].steps[7].cost = 1, l.rows[0].windows[0].last = 8));
    MADE((l.rows[0].windows[3].first = 1, l.rows[0].windows[0].limit = 1));
    MADE((l.rows[0].windows[3].first = 1, l.rows[0].windows[0].last = 8));
    MADE((l.rows[0].windows[3].first = 1, l.rows[1].identifier = l.rows[0].identifier));
    MADE((l.rows[0].steps[7].wait = 1, l.rows[1].box = l.rows[0].box));
    MADE((l.rows[1].windows[3].limit = 1, l.rows[1].box = l.rows[0].box));
    MADE((l.rows[23].phase = 1, l.rows[1].identifier = l.rows[0].identifier));
    MADE((l.rows[23].phase = 1, l.rows[1].box = l.rows[0].box));
    MADE((l.rows[23].phase = 1, l.rows[1].windows[0].limit = 1));
    MADE((l.rows[23].phase = 1, l.rows[1].windows[0].last = 8));
    MADE((l.rows[0].steps[0].cost = 0, l.rows[1].box = l.rows[0].box));
}

/* Row counts below and above what is there, up to all that a byte can say. */
static void ask_row_counts(struct asking *asking, const struct load *load)
{
    static const uint8_t counts[] = {0, 1, 3, 23, 24, 25, 26, 64, 128, 200, 254, 255};
    for (size_t place = 0; place < sizeof counts; place++)
        MADE(l.row_count = counts[place]);
}

/* 24 rows with row 24 used: nothing is unused; then its last places. */
static void ask_last_row(struct asking *asking)
{
    struct load all = load_with(&asking->dice, MOST_ROWS, MOST_STEPS, MOST_WINDOWS);
    const struct load *load = &all;
    MADE((void)l);
    MADE(l.rows[23].steps[7].wait = 1);
    MADE(l.rows[23].steps[7].cost = 0);
    MADE(l.rows[23].windows[3].limit = 1);
    MADE(l.rows[23].windows[3].last = 9);
    MADE(l.rows[23].box = l.rows[22].box);
    MADE(l.rows[23].identifier = l.rows[0].identifier);
    MADE(l.row_count = 25);
    MADE(l.row_count = 23);
}

void ask_loads_in_memory(struct asking *asking)
{
    struct dice *dice = &asking->dice;
    struct load load = load_with(dice, 2, 3, 1);
    struct load none = {0};
    ask_load(asking, &none);
    ask_load(asking, &load);
    ask_unused_steps(asking, &load, 1);
    ask_unused_windows(asking, &load, 2);
    ask_unused_row(asking, &load, 3);
    ask_unused_row(asking, &load, MOST_ROWS);
    ask_unused_steps(asking, &load, MOST_ROWS);
    ask_unused_windows(asking, &load, 3);
    ask_unused_row(asking, &none, 1);
    ask_counts_and_orders(asking, &load);
    ask_row_counts(asking, &load);
    ask_row_counts(asking, &none);
    ask_last_row(asking);
    for (unsigned times = 0; times < MEMORY_LOADS + MEMORY_SPOILED; times++) {
        load = any_load(dice, QUICK_SIZES);
        for (uint32_t faults = times < MEMORY_LOADS ? 0 : between(dice, 1, 3); faults > 0; faults--)
            spoil(dice, &load);
        ask_load(asking, &load);
    }
}

static void ask_any_slots(struct asking *asking, size_t count)
{
    struct asked_slots list = {.count = count};
    for (size_t place = 0; place < count; place++) {
        uint32_t number = throw_dice(&asking->dice);
        list.slots[place] = (struct slot){(uint8_t)number, (uint8_t)(number >> 8),
                                          throw_dice(&asking->dice)};
    }
    ask_schedule(asking, &list);
}

void ask_schedules(struct asking *asking)
{
    static const size_t counts[] = {0, 1, 2, 3, 7, 24, 100, 191, 192, 193, 194, 255, 256};
    for (size_t place = 0; place < sizeof counts / sizeof counts[0]; place++)
        ask_any_slots(asking, counts[place]);
    struct asked_slots ends = {3, {{0, 0, 0}, {UINT8_MAX, UINT8_MAX, UINT32_MAX},
                                   {24, 8, 1000000}}};
    ask_schedule(asking, &ends);
    for (unsigned times = 0; times < 60; times++) {
        struct load load = any_load(&asking->dice, SMALL_SIZES);
        struct asked_slots list = slots_of(&load);
        ask_schedule(asking, &list);
    }
}
