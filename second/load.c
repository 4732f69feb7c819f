#include "load.h"

#include <stddef.h>

const struct row *row_of(const struct load *load, unsigned row)
{
    return &load->rows[row - 1];
}

const struct step *step_of(const struct row *row, unsigned step)
{
    return &row->steps[step - 1];
}

const struct window *window_of(const struct row *row, unsigned window)
{
    return &row->windows[window - 1];
}

unsigned steps_of(const struct load *load)
{
    unsigned steps = 0;
    for (unsigned row = 1; row <= load->row_count; row++)
        steps += row_of(load, row)->step_count;
    return steps;
}

bool is_embedded(const struct row *row, unsigned step)
{
    for (unsigned at = 1; at <= row->window_count; at++) {
        const struct window *window = window_of(row, at);
        if (window->first < step && step <= window->last)
            return true;
    }
    return false;
}

bool is_free(const struct row *row, unsigned step)
{
    return 1 <= step && step <= row->step_count && !is_embedded(row, step);
}

const struct window *window_from(const struct row *row, unsigned step)
{
    for (unsigned at = 1; at <= row->window_count; at++)
        if (window_of(row, at)->first == step)
            return window_of(row, at);
    return NULL;
}

const struct window *window_to(const struct row *row, unsigned step)
{
    for (unsigned at = 1; at <= row->window_count; at++)
        if (window_of(row, at)->last == step)
            return window_of(row, at);
    return NULL;
}

uint32_t chain_of(const struct row *row, const struct window *window)
{
    uint32_t chain = step_of(row, window->first)->cost;
    for (unsigned step = window->first + 1u; step <= window->last; step++)
        chain += (uint32_t)step_of(row, step - 1)->wait + step_of(row, step)->cost;
    return chain;
}

static bool are_row_numbers_in_range(const struct row *row)
{
    return row->identifier.number >= 1
        && row->box.number >= 1
        && row->phase <= MOST_PHASE
        && row->deadline >= 1 && row->deadline <= MOST_DEADLINE
        && row->step_count >= 1 && row->step_count <= MOST_STEPS
        && row->window_count <= MOST_WINDOWS
        && row->class <= MOST_CLASS
        && row->head == ONLY_HEAD;
}

static bool is_identifier_taken(const struct load *load, unsigned row)
{
    for (unsigned earlier = 1; earlier < row; earlier++)
        if (row_of(load, earlier)->identifier.number == row_of(load, row)->identifier.number)
            return true;
    return false;
}

static bool is_box_taken(const struct load *load, unsigned row)
{
    for (unsigned earlier = 1; earlier < row; earlier++)
        if (row_of(load, earlier)->box.number == row_of(load, row)->box.number)
            return true;
    return false;
}

enum refusal check_row_record(const struct load *load, unsigned row)
{
    if (!are_row_numbers_in_range(row_of(load, row)))
        return OUT_OF_RANGE;
    if (row_of(load, row)->identifier.number == FACTORY_NUMBER)
        return FACTORY_IDENTIFIER;
    if (is_identifier_taken(load, row))
        return IDENTIFIER_TAKEN;
    if (is_box_taken(load, row))
        return BOX_TAKEN;
    return ACCEPTED;
}

enum refusal check_step_record(const struct row *row, unsigned step)
{
    const struct step *asked = step_of(row, step);
    uint16_t most_wait = step == row->step_count ? 0 : MOST_WAIT;
    if (asked->cost < 1 || asked->cost > MOST_COST || asked->wait > most_wait)
        return OUT_OF_RANGE;
    return ACCEPTED;
}

/* The windows before this one are good and ascending: the nearest of them decides. */
static bool are_window_steps_wrong(const struct row *row, unsigned window)
{
    const struct window *asked = window_of(row, window);
    unsigned taken = window == 1 ? 0 : window_of(row, window - 1)->last;
    return asked->last <= asked->first || asked->last > row->step_count || asked->first <= taken;
}

enum refusal check_window_record(const struct row *row, unsigned window)
{
    const struct window *asked = window_of(row, window);
    if (asked->first == 0 || asked->last == 0 || asked->limit == 0)
        return OUT_OF_RANGE;
    if (are_window_steps_wrong(row, window))
        return WINDOW_STEPS;
    if (asked->limit < chain_of(row, asked))
        return LIMIT_BELOW_CHAIN;
    return ACCEPTED;
}

static bool is_step_unused(const struct step *step)
{
    return step->cost == 0 && step->wait == 0;
}

static bool is_window_unused(const struct window *window)
{
    return window->first == 0 && window->last == 0 && window->limit == 0;
}

static enum refusal check_steps(const struct row *row)
{
    for (unsigned step = 1; step <= MOST_STEPS; step++) {
        if (step <= row->step_count && check_step_record(row, step) != ACCEPTED)
            return check_step_record(row, step);
        if (step > row->step_count && !is_step_unused(step_of(row, step)))
            return OUT_OF_RANGE;
    }
    return ACCEPTED;
}

static enum refusal check_windows(const struct row *row)
{
    for (unsigned window = 1; window <= MOST_WINDOWS; window++) {
        if (window <= row->window_count && check_window_record(row, window) != ACCEPTED)
            return check_window_record(row, window);
        if (window > row->window_count && !is_window_unused(window_of(row, window)))
            return OUT_OF_RANGE;
    }
    return ACCEPTED;
}

static enum refusal check_row(const struct load *load, unsigned row)
{
    enum refusal refusal = check_row_record(load, row);
    if (refusal == ACCEPTED)
        refusal = check_steps(row_of(load, row));
    if (refusal == ACCEPTED)
        refusal = check_windows(row_of(load, row));
    return refusal;
}

/* With no steps and no windows counted, the two part checks ask for zeros alone. */
static bool is_row_unused(const struct row *row)
{
    return row->identifier.number == 0 && row->box.number == 0
        && row->phase == 0 && row->deadline == 0
        && row->step_count == 0 && row->window_count == 0
        && row->class == 0 && row->head == 0
        && check_steps(row) == ACCEPTED && check_windows(row) == ACCEPTED;
}

enum refusal check_load(const struct load *load)
{
    if (load->row_count > MOST_ROWS)
        return OUT_OF_RANGE;
    for (unsigned row = 1; row <= MOST_ROWS; row++) {
        if (row <= load->row_count && check_row(load, row) != ACCEPTED)
            return check_row(load, row);
        if (row > load->row_count && !is_row_unused(row_of(load, row)))
            return OUT_OF_RANGE;
    }
    return ACCEPTED;
}
