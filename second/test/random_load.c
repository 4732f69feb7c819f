#include "random_load.h"

#include <stddef.h>

/* Xorshift. */
uint32_t throw_dice(struct dice *dice)
{
    dice->state ^= dice->state << 13;
    dice->state ^= dice->state >> 7;
    dice->state ^= dice->state << 17;
    return (uint32_t)(dice->state >> 32);
}

uint32_t between(struct dice *dice, uint32_t least, uint32_t most)
{
    return least + throw_dice(dice) % (most - least + 1);
}

/* How large the numbers of a load may be. Small ones meet each other most often. */
struct size {
    uint32_t rows, steps, cost, wait, phase, spare;
};

static struct size any_size(struct dice *dice, unsigned among)
{
    static const struct size sizes[ALL_SIZES] = {
        {2, 3, 3, 4, 0, 3},         {3, 3, 3, 8, 4, 6},         {3, 4, 5, 12, 10, 8},
        {4, 5, 4, 10, 20, 10},      {6, 8, 6, 20, 0, 12},       {8, 8, 10, 40, 30, 60},
        {24, 2, 5, 60, 10, 30},     {24, 8, 8, 30, 50, 200},    {5, 6, 600, 3600, 0, 4000},
        {4, 8, 2, 3600, 86400, 50},
    };
    return sizes[throw_dice(dice) % among];
}

/* Limits lie between the chain and a little above it: tight windows are the hard ones. */
static void add_window(struct dice *dice, struct row *row, const struct size *size)
{
    unsigned taken = row->window_count == 0 ? 0 : window_of(row, row->window_count)->last;
    if (row->window_count == MOST_WINDOWS || taken + 2 > row->step_count)
        return;
    struct window window = {0};
    window.first = (uint8_t)between(dice, taken + 1, row->step_count - 1u);
    window.last = (uint8_t)between(dice, window.first + 1u, row->step_count);
    window.limit = (uint16_t)(chain_of(row, &window) + between(dice, 0, size->spare));
    row->windows[row->window_count++] = window;
}

static struct row row_without_windows(struct dice *dice, const struct size *size,
                                      unsigned number, uint32_t steps)
{
    struct row row = {.identifier = {100 + number}, .box = {200 + number},
                      .deadline = MOST_DEADLINE, .step_count = (uint8_t)steps,
                      .head = ONLY_HEAD};
    row.phase = between(dice, 0, size->phase);
    for (unsigned step = 1; step <= row.step_count; step++) {
        uint32_t wait = step == row.step_count ? 0 : between(dice, 0, size->wait);
        row.steps[step - 1] = (struct step){(uint16_t)between(dice, 1, size->cost),
                                            (uint16_t)wait};
    }
    return row;
}

static struct row any_row(struct dice *dice, const struct size *size, unsigned number)
{
    uint32_t steps = between(dice, 1, size->steps);
    struct row row = row_without_windows(dice, size, number, steps);
    for (uint32_t tries = between(dice, 0, MOST_WINDOWS); tries > 0; tries--)
        add_window(dice, &row, size);
    return row;
}

struct load any_load(struct dice *dice, unsigned among)
{
    struct size size = any_size(dice, among);
    struct load load = {.row_count = (uint8_t)between(dice, 1, size.rows)};
    for (unsigned row = 1; row <= load.row_count; row++)
        load.rows[row - 1] = any_row(dice, &size, row);
    return load;
}

/* Of the steps, twice as many as windows are chosen, each choice as likely as any other; they are
   by turns a first and a last step. */
static void add_windows(struct dice *dice, struct row *row, unsigned windows, uint32_t spare)
{
    unsigned chosen = 0;
    for (unsigned step = 1; step <= row->step_count; step++) {
        if (throw_dice(dice) % (row->step_count - step + 1u) >= 2 * windows - chosen)
            continue;
        struct window *window = &row->windows[chosen / 2];
        if (chosen % 2 == 0)
            window->first = (uint8_t)step;
        else
            window->last = (uint8_t)step;
        chosen++;
    }
    row->window_count = (uint8_t)windows;
    for (struct window *window = row->windows; window < row->windows + windows; window++)
        window->limit = (uint16_t)(chain_of(row, window) + between(dice, 0, spare));
}

struct load load_with(struct dice *dice, unsigned rows, unsigned steps, unsigned windows)
{
    static const struct size size = {MOST_ROWS, MOST_STEPS, 5, 12, 8, 15};
    struct load load = {.row_count = (uint8_t)rows};
    for (unsigned row = 1; row <= rows; row++) {
        load.rows[row - 1] = row_without_windows(dice, &size, row, steps);
        add_windows(dice, &load.rows[row - 1], windows, size.spare);
    }
    return load;
}

void set_classes(struct dice *dice, struct load *load)
{
    for (unsigned row = 1; row <= load->row_count; row++)
        load->rows[row - 1].class = (uint8_t)between(dice, 0, MOST_CLASS);
}

void set_deadlines(struct dice *dice, struct load *load, const uint32_t *bounds)
{
    for (unsigned row = 1; row <= load->row_count; row++) {
        uint32_t low = bounds[row - 1] > 3 ? bounds[row - 1] - 3 : 1;
        load->rows[row - 1].deadline = throw_dice(dice) % 3 == 0
            ? bounds[row - 1] : between(dice, low, bounds[row - 1] + 9);
    }
}

void spoil(struct dice *dice, struct load *load)
{
    struct row *row = &load->rows[throw_dice(dice) % load->row_count];
    struct step *step = &row->steps[throw_dice(dice) % row->step_count];
    struct window *window = &row->windows[throw_dice(dice) % MOST_WINDOWS];
    bool there = window < row->windows + row->window_count;
    switch (throw_dice(dice) % 11) {
    case 0: row->identifier.number = between(dice, 100, 100u + load->row_count); break;
    case 1: row->box.number = between(dice, 200, 200u + load->row_count); break;
    case 2: row->phase = between(dice, 86395, 86405); break;
    case 3: row->deadline = throw_dice(dice) % 2 ? 0 : between(dice, 999999, 1000001); break;
    case 4: step->cost = (uint16_t)(throw_dice(dice) % 2 ? 0 : between(dice, 599, 602)); break;
    case 5: step->wait = (uint16_t)between(dice, 3598, 3602); break;
    case 6: row->class = (uint8_t)between(dice, 0, MOST_CLASS + 2); break;
    case 7: row->head = (uint8_t)between(dice, 0, 2); break;
    case 8: if (there) window->first = (uint8_t)between(dice, 0, 9); break;
    case 9: if (there) window->last = (uint8_t)between(dice, 0, 9); break;
    default: if (there) window->limit = (uint16_t)between(dice, 0, 20); break;
    }
}
