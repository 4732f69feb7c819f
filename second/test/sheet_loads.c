#include "sheet_loads.h"

enum { NUMBER_BITS = 32, ROW_BITS = 5 };

/* A number of few bits or many; its lowest have the row, so that no two rows have the same. */
static uint32_t any_number(struct dice *dice, unsigned row)
{
    uint32_t most = UINT32_MAX >> throw_dice(dice) % (NUMBER_BITS - ROW_BITS);
    return (throw_dice(dice) & most) >> ROW_BITS << ROW_BITS | row;
}

void number_rows(struct dice *dice, struct load *load)
{
    for (unsigned row = 1; row <= load->row_count; row++) {
        load->rows[row - 1].identifier.number = any_number(dice, row);
        load->rows[row - 1].box.number = any_number(dice, row);
    }
}

static struct window full_window(unsigned window)
{
    return (struct window){(uint8_t)(2 * window - 1), (uint8_t)(2 * window), UINT16_MAX};
}

static struct row longest_row(unsigned row)
{
    struct row longest = {{UINT32_MAX - row}, {UINT32_MAX - MOST_ROWS + row}, MOST_PHASE,
                          MOST_DEADLINE, MOST_STEPS, MOST_WINDOWS, 0, 1, {{0, 0}}, {{0, 0, 0}}};
    for (unsigned step = 1; step <= MOST_STEPS; step++)
        longest.steps[step - 1] = (struct step){MOST_COST, step < MOST_STEPS ? MOST_WAIT : 0};
    for (unsigned window = 1; window <= MOST_WINDOWS; window++)
        longest.windows[window - 1] = full_window(window);
    return longest;
}

struct load longest_load(void)
{
    struct load load = {.row_count = MOST_ROWS};
    for (unsigned row = 1; row <= MOST_ROWS; row++)
        load.rows[row - 1] = longest_row(row);
    return load;
}
