/* Shapes broken by one, and the clock's end, of loads lent as files or in memory. */
#include "questions.h"

enum { ANY_SHAPES = 7 };

/* Each line changes one place of the state. */
#define SHAPED(place) \
    do { \
        struct bench s = *state; \
        place; \
        ask_move_of(asking, load, &s); \
    } while (0)

static void ask_shape(struct asking *asking, const struct load *load, const struct bench *state,
                      unsigned row)
{
    const struct progress *progress = progress_of(state, row);
    unsigned steps = row_of(load, row)->step_count;
    SHAPED(s.rows[row - 1].finished = (uint8_t)steps);
    SHAPED(s.rows[row - 1].finished = (uint8_t)(steps + 1));
    SHAPED(s.rows[row - 1].finished = UINT8_MAX);
    SHAPED(s.rows[row - 1].end = state->clock);
    SHAPED(s.rows[row - 1].end = state->clock + 1);
    SHAPED(s.rows[row - 1].end = UINT32_MAX);
    SHAPED((s.rows[row - 1].finished = 0, s.rows[row - 1].end = 0, s.rows[row - 1].opening = 0));
    SHAPED((s.rows[row - 1].finished = 0, s.rows[row - 1].end = 1, s.rows[row - 1].opening = 0));
    SHAPED((s.rows[row - 1].finished = 0, s.rows[row - 1].end = 0, s.rows[row - 1].opening = 1));
    SHAPED(s.rows[row - 1].opening = 0);
    SHAPED(s.rows[row - 1].opening = 1);
    SHAPED(s.rows[row - 1].opening = progress->end);
    SHAPED(s.rows[row - 1].opening = progress->end + 1);
    SHAPED(s.rows[row - 1].opening = UINT32_MAX);
}

static void ask_clocks(struct asking *asking, const struct load *load, const struct bench *state)
{
    SHAPED(s.clock = 0);
    SHAPED(s.clock = LAST_MOMENT - 1);
    SHAPED(s.clock = LAST_MOMENT);
    SHAPED(s.clock = LAST_MOMENT + 1);
    SHAPED(s.clock = UINT32_MAX);
    SHAPED((s.clock = LAST_MOMENT, s.rows[0].finished = UINT8_MAX));
}

static void ask_unused_place(struct asking *asking, const struct load *load,
                             const struct bench *state, unsigned row)
{
    SHAPED(s.rows[row - 1].finished = 1);
    SHAPED(s.rows[row - 1].end = 1);
    SHAPED(s.rows[row - 1].opening = 1);
}

static void ask_every_shape(struct asking *asking, const struct load *load,
                            const struct bench *state)
{
    for (unsigned row = 1; row <= load->row_count; row++)
        ask_shape(asking, load, state, row);
    ask_clocks(asking, load, state);
    ask_unused_place(asking, load, state, load->row_count + 1u);
    ask_unused_place(asking, load, state, MOST_ROWS);
}

/* 2 w4 2 (window 1 to 2, limit 20), open since 4, and 3 w1 1. */
void ask_shapes(struct asking *asking)
{
    struct load load = {2, {
        {{3}, {4}, 0, 99, 2, 1, 0, 1, {{2, 4}, {2, 0}}, {{1, 2, 20}}},
        {{5}, {6}, 0, 99, 2, 0, 0, 1, {{3, 1}, {1, 0}}, {{0, 0, 0}}},
    }};
    struct bench state = {10, {{1, 6, 4}, {1, 9, 0}}};
    ask_every_shape(asking, &load, &state);
}

void ask_any_shapes(struct asking *asking)
{
    for (unsigned times = 0; times < ANY_SHAPES; times++) {
        struct load load = load_with(&asking->dice, 2, 2 + times % 4, 1);
        struct bench state = tight_state(&asking->dice, &load);
        ask_every_shape(asking, &load, &state);
    }
}

/* A window to be closed, one to be opened, and one open while the other opens. */
static void ask_near_end(struct asking *asking, const struct load *load, uint32_t clock)
{
    struct bench closes = {clock, {{1, clock, clock - 2}, {2, clock, 0}}};
    struct bench opens = {clock, {{2, clock, 0}, {0, 0, 0}}};
    struct bench both = {clock, {{1, clock - 3, clock - 5}, {0, 0, 0}}};
    ask_move_of(asking, load, &closes);
    ask_move_of(asking, load, &opens);
    ask_move_of(asking, load, &both);
}

/* A step that would end before 1,000,000, just at it and after it; then the clock is full, with
   work left and without. */
void ask_full_clocks(struct asking *asking)
{
    static const uint16_t costs[] = {7, 1, 2, 600};
    for (unsigned place = 0; place < share_of(asking, 4); place++) {
        uint16_t cost = costs[place];
        struct load load = {2, {
            {{3}, {4}, 0, 9, 2, 1, 0, 1, {{2, 0}, {cost, 0}}, {{1, 2, 700}}},
            {{5}, {6}, 86400, 9, 2, 1, 0, 1, {{cost, 1}, {2, 0}}, {{1, 2, 700}}},
        }};
        struct bench all = {LAST_MOMENT, {{2, LAST_MOMENT, 0}, {2, LAST_MOMENT, 0}}};
        for (uint32_t clock = LAST_MOMENT - cost - 2; clock <= LAST_MOMENT - cost + 1u; clock++)
            ask_near_end(asking, &load, clock);
        ask_near_end(asking, &load, LAST_MOMENT - 1);
        ask_near_end(asking, &load, LAST_MOMENT);
        ask_move_of(asking, &load, &all);
        all.rows[1].finished = 1;
        ask_move_of(asking, &load, &all);
        all.rows[1].opening = LAST_MOMENT;
        ask_move_of(asking, &load, &all);
    }
}
