/* Loads with classes, most of them such that the class decides who goes first: runs, moves, lists
   and blames, of files of version 2 and in memory. */
#include "bound.h"
#include "class_kinds.h"
#include "questions.h"

enum { RUNS_BY_CLASS = 40, RUNS_BY_BOTH = 40, MOVES_BY_CLASS = 90, TIGHT_MOVES = 50,
       MOVES_IN_MEMORY = 8, LARGE_LOADS = 5, LISTS = 12, BLAMES = 6 };

/* 1 w0 1 three times with classes 0, 1 and 3: rows 3, 2, 1, and so again. */
static const struct load THREE_CLASSES = {3, {
    {{101}, {201}, 0, MOST_DEADLINE, 2, 0, 0, 1, {{1, 0}, {1, 0}}, {{0, 0, 0}}},
    {{102}, {202}, 0, MOST_DEADLINE, 2, 0, 1, 1, {{1, 0}, {1, 0}}, {{0, 0, 0}}},
    {{103}, {203}, 0, MOST_DEADLINE, 2, 0, 3, 1, {{1, 0}, {1, 0}}, {{0, 0, 0}}},
}};

/* 1 w0 1 (window 1 to 2, limit 20) of class 3, and 5: the step number comes before the class. */
static const struct load STEP_FIRST = {2, {
    {{101}, {201}, 0, MOST_DEADLINE, 2, 1, 3, 1, {{1, 0}, {1, 0}}, {{1, 2, 20}}},
    {{102}, {202}, 0, MOST_DEADLINE, 1, 0, 0, 1, {{5, 0}}, {{0, 0, 0}}},
}};

/* 1 w4 1 and 1 w1 1 of class 3, windows open and both due at 6, and 1: row 1 is planned first, and
   leaves row 2 late. Planned by class it would not, and row 3 would start. */
static const struct load EQUAL_DUES = {3, {
    {{101}, {201}, 0, MOST_DEADLINE, 2, 1, 0, 1, {{1, 4}, {1, 0}}, {{1, 2, 6}}},
    {{102}, {202}, 0, MOST_DEADLINE, 2, 1, 3, 1, {{1, 1}, {1, 0}}, {{1, 2, 6}}},
    {{103}, {203}, 0, MOST_DEADLINE, 1, 0, 0, 1, {{1, 0}}, {{0, 0, 0}}},
}};

/* 1 w1 5 of class 3 due at 30, 1 w1 1 due at 5, and 1: row 2 is planned first, and both are kept.
   Planned by class row 1 comes first and leaves row 2 late. */
static const struct load LATER_DUE = {3, {
    {{101}, {201}, 0, MOST_DEADLINE, 2, 1, 3, 1, {{1, 1}, {5, 0}}, {{1, 2, 30}}},
    {{102}, {202}, 0, MOST_DEADLINE, 2, 1, 0, 1, {{1, 1}, {1, 0}}, {{1, 2, 5}}},
    {{103}, {203}, 0, MOST_DEADLINE, 1, 0, 1, 1, {{1, 0}}, {{0, 0, 0}}},
}};

static void ask_worked(struct asking *asking)
{
    const struct load *loads[] = {&THREE_CLASSES, &STEP_FIRST, &EQUAL_DUES, &LATER_DUE};
    const struct bench open = {1, {{1, 1, 0}, {1, 1, 0}}};
    for (unsigned place = 0; place < sizeof loads / sizeof loads[0]; place++) {
        struct asked_file file = file_of(loads[place]);
        ask_all_of_file(asking, &file);
    }
    ask_move_of(asking, &EQUAL_DUES, &open);
    ask_move_of(asking, &LATER_DUE, &open);
}

static struct load urgent_load(struct dice *dice, unsigned sizes)
{
    uint32_t bounds[MOST_ROWS];
    struct load load = any_load(dice, sizes);
    set_classes(dice, &load);
    row_bounds_of(&load, bounds);
    set_deadlines(dice, &load, bounds);
    return load;
}

static struct load load_by_class(struct dice *dice, bool by_plan_too)
{
    struct load load;
    do
        load = urgent_load(dice, SMALL_SIZES + 1);
    while (!turns_by_class(&load) || (by_plan_too && !turns_by_plan(&load)));
    return load;
}

static void ask_runs(struct asking *asking)
{
    for (unsigned times = 0; times < RUNS_BY_CLASS + RUNS_BY_BOTH; times++) {
        struct load load = load_by_class(&asking->dice, times >= RUNS_BY_CLASS);
        struct asked_file file = file_of(&load);
        asking->class_turns++;
        asking->class_and_plan_turns += turns_by_plan(&load);
        ask_report(asking, &file);
    }
}

/* 24 rows, and 8 steps in one of them. */
static void ask_large_runs(struct asking *asking)
{
    for (unsigned times = 0; times < LARGE_LOADS; times++) {
        struct load load = load_with(&asking->dice, MOST_ROWS, times == 0 ? MOST_STEPS : 1 + times,
                                     times == 0 ? MOST_WINDOWS : times / 2);
        set_classes(&asking->dice, &load);
        struct asked_file file = file_of(&load);
        ask_report(asking, &file);
    }
}

/* From a tight state or from any; `decided` says that the class must decide. */
static void ask_move_by_class(struct asking *asking, bool tight, bool decided)
{
    struct load load;
    struct bench state;
    do {
        load = urgent_load(&asking->dice, SMALL_SIZES + 1);
        state = tight ? tight_state(&asking->dice, &load) : any_state(&asking->dice, &load);
    } while (decided && !moves_by_class(&load, &state));
    asking->class_moves += moves_by_class(&load, &state);
    ask_move_of(asking, &load, &state);
}

static void ask_moves_by_class(struct asking *asking)
{
    for (unsigned times = 0; times < MOVES_BY_CLASS; times++)
        ask_move_by_class(asking, times % 2 == 0, true);
    for (unsigned times = 0; times < TIGHT_MOVES; times++)
        ask_move_by_class(asking, true, false);
}

/* The run's own list, and the one that it would be without classes: the check does not ask who goes
   first. */
static void ask_lists(struct asking *asking)
{
    for (unsigned times = 0; times < LISTS; times++) {
        struct load load = load_by_class(&asking->dice, false), plain = load;
        for (unsigned row = 1; row <= load.row_count && times % 2 == 0; row++)
            plain.rows[row - 1].class = 0;
        struct asked_slots list = slots_of(&plain);
        ask_check_of(asking, &load, &list);
    }
}

static void ask_blames_of_urgent(struct asking *asking)
{
    for (unsigned times = 0; times < BLAMES; times++) {
        struct load load = load_by_class(&asking->dice, false);
        struct asked_file file = file_of(&load);
        ask_blame(asking, &file);
    }
}

void ask_urgent(struct asking *asking)
{
    ask_worked(asking);
    ask_runs(asking);
    ask_large_runs(asking);
    ask_moves_by_class(asking);
    ask_lists(asking);
    ask_blames_of_urgent(asking);
}

void ask_urgent_moves_in_memory(struct asking *asking)
{
    for (unsigned times = 0; times < MOVES_IN_MEMORY; times++)
        ask_move_by_class(asking, times % 2 == 0, true);
}
