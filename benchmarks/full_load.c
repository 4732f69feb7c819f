#include "full_load.h"

#include <inttypes.h>
#include <stdio.h>

const char *const KIND_NAMES[KINDS] = {"staggered", "wide", "tight", "mixed"};

enum { LITTLE_ROOM = 20 };

/* The lowest bits are never all 0, with which the dice would show nothing else. */
struct dice dice_of(uint64_t seed)
{
    return (struct dice){0x9E3779B97F4A7C15u ^ seed << 20};
}

void give_room(const struct row *row, struct window *window, uint32_t room)
{
    uint32_t limit = chain_of(row, window) + room;
    window->limit = (uint16_t)(limit < UINT16_MAX ? limit : UINT16_MAX);
}

/* Of the steps, twice as many as windows are chosen, each choice as likely as any other; they are
   by turns a first and a last step. */
void place_windows(struct dice *dice, struct row *row, unsigned windows, uint32_t most_room)
{
    unsigned chosen = 0;
    row->window_count = (uint8_t)windows;
    for (unsigned place = 0; place < MOST_WINDOWS; place++)
        row->windows[place] = (struct window){0};
    for (unsigned step = 1; step <= row->step_count; step++) {
        if (throw_dice(dice) % (row->step_count - step + 1u) >= 2 * windows - chosen)
            continue;
        struct window *window = &row->windows[chosen / 2];
        if (chosen % 2 == 0)
            window->first = (uint8_t)step;
        else
            window->last = (uint8_t)step;
        chosen++;
    }
    for (unsigned place = 0; place < windows; place++)
        give_room(row, &row->windows[place], between(dice, 0, most_room));
}

static struct row row_without_windows(struct dice *dice, unsigned number, unsigned steps,
                                      const struct most *most)
{
    struct row row = {.identifier = {100 + number},
                      .box = {200 + number},
                      .deadline = MOST_DEADLINE,
                      .step_count = (uint8_t)steps,
                      .head = ONLY_HEAD};
    row.phase = between(dice, 0, most->phase);
    for (unsigned step = 0; step < steps; step++) {
        row.steps[step].cost = (uint16_t)between(dice, 1, most->cost);
        if (step + 1 < steps)
            row.steps[step].wait = (uint16_t)between(dice, 0, most->wait);
    }
    return row;
}

static void add_window(struct row *row, unsigned first, unsigned last, uint32_t room)
{
    struct window *window = &row->windows[row->window_count++];
    *window = (struct window){.first = (uint8_t)first, .last = (uint8_t)last};
    give_room(row, window, room);
}

/* One window from a step of the first third to one of the last, or two that share the row. */
static void add_wide_windows(struct dice *dice, struct row *row, uint32_t most_room)
{
    unsigned steps = row->step_count;
    bool two = steps >= 4 && throw_dice(dice) % 3 == 0;
    unsigned first = two ? 1 : between(dice, 1, 1 + (steps - 2) / 3);
    unsigned last
        = two ? between(dice, 2, steps - 2) : between(dice, steps - (steps - 2) / 3, steps);
    add_window(row, first, last, between(dice, 0, most_room));
    if (two)
        add_window(row, last + 1, steps, between(dice, 0, most_room));
}

/* Places count from 0. */
static void add_windows(struct dice *dice, struct row *row, enum kind kind, uint32_t most_room,
                        unsigned place, unsigned rows)
{
    unsigned most_windows = row->step_count / 2u;
    if (kind == STAGGERED)
        add_window(row, 1, row->step_count, most_room * place / rows + place);
    else if (kind == WIDE)
        add_wide_windows(dice, row, most_room);
    else if (kind == TIGHT)
        most_room = throw_dice(dice) % 2 == 0 ? 0 : LITTLE_ROOM;
    if (kind == TIGHT || kind == MIXED)
        place_windows(dice, row, between(dice, kind == TIGHT, most_windows), most_room);
}

struct load load_of_kind(struct dice *dice, enum kind kind, unsigned rows, unsigned steps,
                         const struct most *most)
{
    struct load load = {.row_count = (uint8_t)rows};
    for (unsigned place = 0; place < rows; place++) {
        struct row *row = &load.rows[place];
        *row = row_without_windows(dice, place + 1, steps, most);
        if (steps >= 2)
            add_windows(dice, row, kind, most->room, place, rows);
    }
    return load;
}

static void print_row(const struct row *row)
{
    printf("%" PRIu32 " %" PRIu32 " %" PRIu32 " %" PRIu32 " :", row->identifier.number,
           row->box.number, row->phase, row->deadline);
    for (unsigned step = 0; step < row->step_count; step++)
        printf(" %u w%u", row->steps[step].cost, row->steps[step].wait);
    printf(" :");
    for (unsigned window = 0; window < row->window_count; window++)
        printf(" %u-%u<=%u", row->windows[window].first, row->windows[window].last,
               row->windows[window].limit);
    putchar('\n');
}

void print_rows(const struct load *load)
{
    for (unsigned row = 0; row < load->row_count; row++)
        print_row(&load->rows[row]);
}
