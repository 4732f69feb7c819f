/* Blames and margins of loads in memory: of sound ones, with margins of either sign, and of faulty
   ones, for each number that such a load can have. */
#include "bound.h"
#include "questions.h"
#include "worked.h"

enum { SOUND_LOADS = 36, WIDE_LOADS = 3 };

static void ask_near_bounds(struct asking *asking, struct load load)
{
    uint32_t bounds[MOST_ROWS];
    row_bounds_of(&load, bounds);
    set_deadlines(&asking->dice, &load, bounds);
    ask_places(asking, &load);
}

/* The least margins that there are: every number at its end, and every wait embedded, since all of
   those are added up. */
static struct load late_load(void)
{
    struct load load = {.row_count = MOST_ROWS};
    for (unsigned row = 1; row <= MOST_ROWS; row++) {
        struct row late = {{row}, {row}, MOST_PHASE, 1, MOST_STEPS, 1, 0, 1, {{0, 0}},
                           {{1, MOST_STEPS, UINT16_MAX}}};
        for (unsigned step = 1; step <= MOST_STEPS; step++)
            late.steps[step - 1] = (struct step){MOST_COST, step < MOST_STEPS ? MOST_WAIT : 0};
        load.rows[row - 1] = late;
    }
    return load;
}

/* And the largest one. */
static struct load early_load(void)
{
    return (struct load){1, {{{1}, {1}, 0, MOST_DEADLINE, 1, 0, 0, 1, {{1, 0}}, {{0, 0, 0}}}}};
}

static void ask_sound_places(struct asking *asking)
{
    struct load none = {0}, late = late_load(), early = early_load();
    for (unsigned at = 0; at < WORKED_LOADS; at++)
        ask_places(asking, &WORKED[at].load);
    ask_places(asking, &none);
    ask_places(asking, &late);
    ask_places(asking, &early);
    for (unsigned times = 0; times < SOUND_LOADS; times++)
        ask_near_bounds(asking, any_load(&asking->dice, ALL_SIZES));
    for (unsigned times = 0; times < WIDE_LOADS; times++)
        ask_near_bounds(asking, load_with(&asking->dice, MOST_ROWS, MOST_STEPS, times));
}

static void ask_faulty_places(struct asking *asking, const struct lent *lent,
                              const struct load *load)
{
    (void)lent;
    ask_places(asking, load);
}

void ask_places_in_memory(struct asking *asking)
{
    ask_sound_places(asking);
    ask_each_fault(asking, ask_faulty_places);
    ask_faults_in_order(asking, ask_places);
}
