/* Faulty loads in memory for whatever is asked of one: which of two faults is met first. */
#include "questions.h"

enum { OF_A_NUMBER = 6, LEAST_FAULTS = 2, MOST_FAULTS = 4 };

/* Each line alters a load, a being its row 1, b its row 2 and z its row 24. */
#define MADE(places) \
    do { \
        struct load l = *load; \
        struct row *a = &l.rows[0], *b = &l.rows[1], *z = &l.rows[MOST_ROWS - 1]; \
        (void)a, (void)b, (void)z; \
        places; \
        ask(asking, &l); \
    } while (0)

/* Row counts that do not fit, of a load with nothing unused and of one with everything; and faults
   in row 24. */
static void ask_last_places(struct asking *asking, ask_of_load *ask)
{
    struct load all = load_with(&asking->dice, MOST_ROWS, MOST_STEPS, MOST_WINDOWS), none = {0};
    const struct load *load = &none;
    MADE(l.row_count = 1);
    MADE(l.row_count = MOST_ROWS + 1);
    MADE(l.row_count = UINT8_MAX);
    load = &all;
    MADE((void)l);
    MADE(l.row_count = MOST_ROWS - 1);
    MADE(l.row_count = MOST_ROWS + 1);
    MADE(z->steps[7].wait = 1);
    MADE(z->windows[3].limit = 0);
    MADE(z->identifier = a->identifier);
    MADE(z->box = l.rows[22].box);
    MADE(z->windows[3].last = 9);
    MADE(z->windows[3].limit = 1);
}

/* The first fault decides: of two rows the earlier, of one row its own fields, then steps, then
   windows, of a list the used places. */
static void ask_first_faults(struct asking *asking, ask_of_load *ask)
{
    struct load two = load_with(&asking->dice, 2, 3, 1);
    const struct load *load = &two;
    MADE((b->identifier = a->identifier, b->box = a->box));
    MADE((b->identifier = a->identifier, b->deadline = 0));
    MADE((b->identifier = a->identifier, b->steps[0].cost = 0));
    MADE((b->identifier = a->identifier, a->steps[0].cost = 0));
    MADE((b->box = a->box, b->windows[0].limit = 1));
    MADE((b->box = a->box, a->windows[0].limit = 1));
    MADE((a->windows[0].limit = 1, b->windows[0].last = 4));
    MADE((a->windows[0].last = 4, a->windows[0].limit = 1));
    MADE((a->windows[0].first = 0, a->windows[0].limit = 1));
    MADE((a->windows[0].last = 4, a->steps[3].cost = 1));
    MADE((a->windows[0].last = 4, a->windows[1].first = 1));
    MADE((a->windows[0].limit = 1, a->windows[3].limit = 1));
    MADE((b->box = a->box, a->windows[3].limit = 1));
    MADE((b->identifier = a->identifier, z->phase = 1));
    MADE((b->box = a->box, z->deadline = 1));
    MADE((b->windows[0].last = 4, z->step_count = 1));
    MADE((b->windows[0].limit = 1, z->windows[3].limit = 1));
    MADE((b->identifier = a->identifier, l.row_count = MOST_ROWS + 1));
}

/* Several faults by chance, until the number has been met so often. */
static void ask_number(struct asking *asking, enum refusal number, ask_of_load *ask)
{
    struct dice *dice = &asking->dice;
    for (unsigned found = 0; found < OF_A_NUMBER;) {
        struct load load = any_load(dice, QUICK_SIZES);
        for (uint32_t faults = between(dice, LEAST_FAULTS, MOST_FAULTS); faults > 0; faults--)
            spoil(dice, &load);
        if (check_load(&load) != number)
            continue;
        ask(asking, &load);
        found++;
    }
}

void ask_faults_in_order(struct asking *asking, ask_of_load *ask)
{
    ask_last_places(asking, ask);
    ask_first_faults(asking, ask);
    for (enum refusal number = OUT_OF_RANGE; number <= LIMIT_BELOW_CHAIN; number++)
        ask_number(asking, number, ask);
}
