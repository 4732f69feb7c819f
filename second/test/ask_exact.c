/* Loads made to fit a list exactly: every phase, wait, limit and deadline is met with nothing to
   spare, and then one of them is tightened by one (15, 16, 17). */
#include "questions.h"

enum { EXACT_LOADS = 48 };

/* Each slot a little later than before: no slot comes nearer to another. */
static void stretch(struct dice *dice, struct asked_slots *list)
{
    uint32_t later = 0;
    for (size_t place = 0; place < list->count; place++) {
        later += between(dice, 0, 3);
        list->slots[place].start += later;
    }
}

static uint32_t start_in(const struct asked_slots *list, unsigned row, unsigned step)
{
    size_t place = 0;
    while (list->slots[place].row != row || list->slots[place].step != step)
        place++;
    return list->slots[place].start;
}

static uint32_t end_in(const struct asked_slots *list, const struct load *load, unsigned row,
                       unsigned step)
{
    return start_in(list, row, step) + step_of(row_of(load, row), step)->cost;
}

/* Limits and deadlines; the waits stay, so that a limit can be tightened. */
static void fit_row(struct load *load, const struct asked_slots *list, unsigned row)
{
    struct row *place = &load->rows[row - 1];
    place->phase = start_in(list, row, 1);
    place->deadline = end_in(list, load, row, place->step_count);
    for (unsigned at = 0; at < place->window_count; at++) {
        struct window *window = &place->windows[at];
        window->limit = (uint16_t)(end_in(list, load, row, window->last)
                                   - start_in(list, row, window->first));
    }
}

/* Waits too; every limit is then its chain. */
static void fit_waits(struct load *load, const struct asked_slots *list, unsigned row)
{
    struct row *place = &load->rows[row - 1];
    for (unsigned step = 1; step < place->step_count; step++)
        place->steps[step - 1].wait
            = (uint16_t)(start_in(list, row, step + 1) - end_in(list, load, row, step));
}

/* Each line tightens one thing. */
#define TIGHTENED(place) \
    do { \
        struct load l = *load; \
        struct row *r = &l.rows[row - 1]; \
        place; \
        struct asked_file file = file_of(&l); \
        ask_check(asking, &file, list); \
    } while (0)

static void ask_tightened(struct asking *asking, const struct load *load,
                          const struct asked_slots *list, unsigned row)
{
    TIGHTENED(r->phase++);
    TIGHTENED(r->deadline--);
    if (row_of(load, row)->window_count == 0)
        return;
    TIGHTENED(r->windows[0].limit--);
    TIGHTENED(r->windows[r->window_count - 1].limit--);
    TIGHTENED((r->windows[r->window_count - 1].limit--, r->deadline--));
}

static void ask_tightened_wait(struct asking *asking, const struct load *load,
                               const struct asked_slots *list, unsigned row)
{
    if (row_of(load, row)->step_count == 1)
        return;
    unsigned step = between(&asking->dice, 1, row_of(load, row)->step_count - 1u);
    TIGHTENED(r->steps[step - 1].wait++);
    TIGHTENED((r->steps[step - 1].wait++, r->windows[0].limit += r->window_count > 0,
               r->windows[1].limit += r->window_count > 1));
}

static void ask_exact(struct asking *asking, struct load load)
{
    struct asked_slots list = slots_of(&load);
    stretch(&asking->dice, &list);
    for (unsigned row = 1; row <= load.row_count; row++)
        fit_row(&load, &list, row);
    struct asked_file file = file_of(&load);
    ask_check(asking, &file, &list);
    unsigned row = between(&asking->dice, 1, load.row_count);
    ask_tightened(asking, &load, &list, row);
    for (unsigned other = 1; other <= load.row_count; other++)
        fit_waits(&load, &list, other);
    file = file_of(&load);
    ask_check(asking, &file, &list);
    ask_tightened_wait(asking, &load, &list, row);
}

void ask_exact_lists(struct asking *asking)
{
    for (unsigned times = 0; times < EXACT_LOADS; times++) {
        unsigned steps = 1 + times % 6;
        ask_exact(asking, load_with(&asking->dice, 1 + times % 4, steps, steps / 2 - times % 2
                                    * (steps > 3)));
    }
}
