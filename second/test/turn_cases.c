/* Who goes first (2026-05): by step number, then higher class, then row; the plan for windows keeps
   its own order. */
#include "bench.h"
#include "cases.h"

/* Rows and starts of a run's slots, in order. */
static void runs(struct tally *tally, const char *what, struct load load, const uint8_t *rows,
                 const uint32_t *starts)
{
    struct run run = run_of(&load);
    for (unsigned place = 0; place < run.slot_count; place++) {
        same(tally, what, rows[place], run.slots[place].row);
        same(tally, what, (long)starts[place], (long)run.slots[place].start);
    }
    same(tally, what, steps_of(&load), run.slot_count);
}

/* 1 w0 1 three times. */
static struct load three_classes(uint8_t class_1, uint8_t class_2, uint8_t class_3)
{
    return (struct load){3, {
        {{101}, {201}, 0, 1000000, 2, 0, class_1, 1, {{1, 0}, {1, 0}}, {{0, 0, 0}}},
        {{102}, {202}, 0, 1000000, 2, 0, class_2, 1, {{1, 0}, {1, 0}}, {{0, 0, 0}}},
        {{103}, {203}, 0, 1000000, 2, 0, class_3, 1, {{1, 0}, {1, 0}}, {{0, 0, 0}}},
    }};
}

/* 1 w0 1 (window 1 to 2, limit 20) of class 3, and 5: class before step number would start row 1's
   second step at 1. */
static struct load step_first(void)
{
    return (struct load){2, {
        {{101}, {201}, 0, 1000000, 2, 1, 3, 1, {{1, 0}, {1, 0}}, {{1, 2, 20}}},
        {{102}, {202}, 0, 1000000, 1, 0, 0, 1, {{5, 0}}, {{0, 0, 0}}},
    }};
}

static void run_cases(struct tally *tally)
{
    static const uint32_t in_turn[] = {0, 1, 2, 3, 4, 5};
    runs(tally, "A with classes 0 0 3", urgent_a(), (const uint8_t[]){3, 1, 2, 3, 2, 1},
         (const uint32_t[]){0, 2, 4, 5, 9, 14});
    struct load urgent = urgent_a();
    same(tally, "its end", 17, (long)run_of(&urgent).end);
    runs(tally, "classes 0 1 3", three_classes(0, 1, 3), (const uint8_t[]){3, 2, 1, 3, 2, 1},
         in_turn);
    runs(tally, "classes 2 0 2", three_classes(2, 0, 2), (const uint8_t[]){1, 3, 2, 1, 3, 2},
         in_turn);
    runs(tally, "classes 3 3 3", three_classes(3, 3, 3), (const uint8_t[]){1, 2, 3, 1, 2, 3},
         in_turn);
    runs(tally, "step number first", step_first(), (const uint8_t[]){1, 2, 1},
         (const uint32_t[]){0, 1, 6});
}

/* The state of both windows open since 0, each after its first step, the clock at 1. */
static struct move move_with_open_windows(uint16_t wait_1, uint16_t cost_1, uint16_t limit_1,
                                          uint16_t limit_2, uint8_t class_1, uint8_t class_2)
{
    struct load load = {3, {
        {{101}, {201}, 0, 1000000, 2, 1, class_1, 1, {{1, wait_1}, {cost_1, 0}}, {{1, 2, limit_1}}},
        {{102}, {202}, 0, 1000000, 2, 1, class_2, 1, {{1, 1}, {1, 0}}, {{1, 2, limit_2}}},
        {{103}, {203}, 0, 1000000, 1, 0, 0, 1, {{1, 0}}, {{0, 0, 0}}},
    }};
    return move_of(&load, (struct bench){1, {{1, 1, 0}, {1, 1, 0}}});
}

/* The plan keeps its own order: by opening plus limit, then by row. */
static void plan_cases(struct tally *tally)
{
    same(tally, "equal dues: row 1 first, row 2 is late", IDLE,
         move_with_open_windows(4, 1, 6, 6, 0, 3).outcome);
    same(tally, "row 2 is due first and is planned first", 3,
         move_with_open_windows(1, 5, 30, 5, 3, 0).slot.row);
}

/* 1 w4 1 (window 1 to 2, limit 6) open, 5 of class 3 and 2 of class 1: from 1 to 6 is too long for
   the window, from 1 to 3 is not. */
static void refused_class_case(struct tally *tally)
{
    struct load load = {3, {
        {{101}, {201}, 0, 1000000, 2, 1, 0, 1, {{1, 4}, {1, 0}}, {{1, 2, 6}}},
        {{102}, {202}, 0, 1000000, 1, 0, 3, 1, {{5, 0}}, {{0, 0, 0}}},
        {{103}, {203}, 0, 1000000, 1, 0, 1, 1, {{2, 0}}, {{0, 0, 0}}},
    }};
    struct move move = move_of(&load, (struct bench){1, {{1, 1, 0}}});
    same(tally, "the lower class passes", 3, move.slot.row);
}

void turn_cases(struct tally *tally)
{
    run_cases(tally);
    plan_cases(tally);
    refused_class_case(tally);
}
