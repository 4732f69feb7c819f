/* Blames: of loads on which a wrong rule shows, of alike rows, of the largest loads, of refused
   files. */
#include "blame_kinds.h"
#include "load_file.h"
#include "questions.h"
#include "worked.h"

enum { LOADS_OF_KIND = 30, CLOSE_LOADS = 40, ALIKE_LOADS = 12, FULL_LOADS = 4, FILES_REFUSED = 6 };

static void ask_blame_of(struct asking *asking, const struct load *load)
{
    struct asked_file file = file_of(load);
    asking->row_ties += ties_rows(load);
    asking->place_ties += ties_places(load);
    asking->cuts += turns_by_cut(load);
    asking->outweighed += is_just_outweighed(load);
    ask_blame(asking, &file);
}

/* Costs of 1 and 2, and waits that the other rows just outweigh or just do not: so W is small, and
   equal to others often. Every third row has a window somewhere. */
static struct row close_row(struct dice *dice, unsigned number, unsigned steps, unsigned rows)
{
    struct row row = {.identifier = {1000 - number}, .box = {number}, .deadline = MOST_DEADLINE,
                      .step_count = (uint8_t)steps, .head = ONLY_HEAD};
    for (unsigned step = 1; step <= steps; step++) {
        uint32_t wait = step < steps ? between(dice, rows - 1, rows + 2) : 0;
        row.steps[step - 1] = (struct step){(uint16_t)between(dice, 1, 2), (uint16_t)wait};
    }
    if (number % 3 != 0 || steps < 2)
        return row;
    struct window window = {.first = (uint8_t)between(dice, 1, steps - 1)};
    window.last = (uint8_t)between(dice, window.first + 1u, steps);
    window.limit = (uint16_t)(chain_of(&row, &window) + between(dice, 0, 9));
    row.windows[row.window_count++] = window;
    return row;
}

static struct load close_load(struct dice *dice, unsigned rows, unsigned least_steps)
{
    struct load load = {.row_count = (uint8_t)rows};
    for (unsigned row = 1; row <= rows; row++) {
        uint32_t steps = between(dice, least_steps, MOST_STEPS);
        load.rows[row - 1] = close_row(dice, row, steps, rows);
    }
    return load;
}

/* One row again and again, or two rows by turns. */
static struct load alike_rows(struct dice *dice, unsigned rows, unsigned kinds)
{
    struct load load = close_load(dice, rows, 2);
    for (unsigned row = kinds + 1; row <= rows; row++) {
        struct row *place = &load.rows[row - 1];
        struct row again = load.rows[row - 1 - kinds];
        again.identifier = place->identifier;
        again.box = place->box;
        *place = again;
    }
    return load;
}

/* Half of the loads have close waits, the others are like any. */
static void ask_loads_that(struct asking *asking, bool (*show)(const struct load *))
{
    struct dice *dice = &asking->dice;
    for (unsigned found = 0; found < LOADS_OF_KIND;) {
        uint32_t rows = between(dice, 2, 6);
        struct load load = found % 2 == 0 ? close_load(dice, rows, 1)
                                          : any_load(dice, SMALL_SIZES);
        if (!show(&load))
            continue;
        ask_blame_of(asking, &load);
        found++;
    }
}

/* With deadlines near the row bounds, so that the margins beside the blames differ in sign. */
static void ask_close_loads(struct asking *asking)
{
    for (unsigned times = 0; times < CLOSE_LOADS; times++) {
        uint32_t bounds[MOST_ROWS];
        struct load load = close_load(&asking->dice, 1 + times % 8, 1 + times % 3);
        row_bounds_of(&load, bounds);
        set_deadlines(&asking->dice, &load, bounds);
        ask_blame_of(asking, &load);
    }
}

static void ask_alike_rows(struct asking *asking)
{
    for (unsigned times = 0; times < ALIKE_LOADS; times++) {
        struct load load = alike_rows(&asking->dice, times < 2 ? MOST_ROWS : 2 + times % 5,
                                      1 + times % 2);
        ask_blame_of(asking, &load);
    }
}

/* 24 rows of 8 steps. */
static void ask_full_loads(struct asking *asking)
{
    for (unsigned times = 0; times < FULL_LOADS; times++) {
        struct load load = close_load(&asking->dice, MOST_ROWS, MOST_STEPS);
        ask_blame_of(asking, &load);
    }
}

static void ask_files_refused(struct asking *asking, enum refusal refusal)
{
    struct load load;
    for (unsigned found = 0, times = 0; found < FILES_REFUSED; times++) {
        struct asked_file file = spoiled_file(&asking->dice, times);
        if (read_load(file.bytes, file.length, &load) != refusal)
            continue;
        ask_blame(asking, &file);
        found++;
    }
}

void ask_blames(struct asking *asking)
{
    for (unsigned at = 0; at < WORKED_LOADS; at++)
        ask_blame_of(asking, &WORKED[at].load);
    ask_loads_that(asking, ties_rows);
    ask_loads_that(asking, ties_places);
    ask_loads_that(asking, turns_by_cut);
    ask_loads_that(asking, is_just_outweighed);
    ask_close_loads(asking);
    ask_alike_rows(asking);
    ask_full_loads(asking);
    for (enum refusal refusal = FILE_SHORT; refusal <= END_DIFFERS; refusal++)
        ask_files_refused(asking, refusal);
}
