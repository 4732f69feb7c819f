/* Faulty loads lent in memory to the move, the check and the writing, beside states, slots and
   rooms that are refused for themselves: the load's number (3 to 7) comes first. */
#include <stddef.h>

#include "questions.h"

enum { PLAYED = 4, TURNS = 6 };

/* A sound load, a state of its run and the run's slots. */
struct lent {
    struct load load;
    struct bench state;
    struct asked_slots list;
};

/* 2 w1 1 w3 2 (window 1 to 2) and 1 w2 2 w0 1 w1 3 (windows 1 to 2 and 3 to 4). */
static struct lent sound_lent(void)
{
    struct lent lent = {.load = {2, {
        {{3}, {4}, 2, 99, 3, 1, 0, 1, {{2, 1}, {1, 3}, {2, 0}}, {{1, 2, 9}}},
        {{5}, {6}, 0, 99, 4, 2, 0, 1, {{1, 2}, {2, 0}, {1, 1}, {3, 0}}, {{1, 2, 20}, {3, 4, 20}}},
    }}};
    for (unsigned played = 0; played < PLAYED; played++)
        lent.state = move_of(&lent.load, lent.state).state;
    lent.list = slots_of(&lent.load);
    return lent;
}

/* Most are of no shape (10), one of them at a full clock; one is full (11); the last is sound. */
static struct bench state_in_turn(struct bench state, unsigned turn)
{
    switch (turn % TURNS) {
    case 0: state.clock = LAST_MOMENT + 1; break;
    case 1: state.clock = LAST_MOMENT; break;
    case 2: state.rows[0].finished = UINT8_MAX; break;
    case 3: state.rows[1].end = state.clock + 1; break;
    case 4: state.clock = LAST_MOMENT; state.rows[MOST_ROWS - 1].opening = 1; break;
    default: break;
    }
    return state;
}

/* Other counts (12), one of them with a slot that does not exist; slots that are refused (13, 13,
   14); the last is sound. */
static struct asked_slots list_in_turn(struct asked_slots list, unsigned turn)
{
    switch (turn % TURNS) {
    case 0: list.count = 0; break;
    case 1: list.count++; list.slots[0].row = 0; break;
    case 2: list.slots[0].row = MOST_ROWS + 1; break;
    case 3: list.slots[1].start = LAST_MOMENT + 1; break;
    case 4: list.slots[1].start = 0; break;
    default: break;
    }
    return list;
}

static void ask_turn(struct asking *asking, const struct lent *lent, const struct load *load,
                     unsigned turn)
{
    struct bench state = state_in_turn(lent->state, turn);
    struct asked_slots list = list_in_turn(lent->list, turn);
    ask_move_of(asking, load, &state);
    ask_check_of(asking, load, &list);
}

static void ask_every_turn(struct asking *asking, const struct lent *lent, const struct load *load)
{
    for (unsigned turn = 0; turn < TURNS; turn++)
        ask_turn(asking, lent, load, turn);
    ask_load_in_room(asking, 0, load);
    ask_load_in_room(asking, MOST_ASKED_BYTES, load);
}

static void ask_next_turn(struct asking *asking, const struct lent *lent, const struct load *load)
{
    ask_turn(asking, lent, load, (unsigned)asking->asked['N']);
}

/* Each line makes the load faulty in a way of its own, r being its row 2. */
#define MADE(ask, place) \
    do { \
        struct load l = lent->load; \
        struct row *r = &l.rows[1]; \
        (void)r; \
        place; \
        ask(asking, lent, &l); \
    } while (0)

#define FAULTY(place) MADE(ask, place)
#define IN_EVERY_TURN(place) MADE(ask_every_turn, place)

/* Numbers out of their range (3). */
static void ask_ranges(struct asking *asking, const struct lent *lent, ask_lent *ask)
{
    FAULTY(l.row_count = UINT8_MAX);
    FAULTY(r->identifier.number = 0);
    FAULTY(r->box.number = 0);
    FAULTY(r->phase = MOST_PHASE + 1);
    FAULTY(r->deadline = 0);
    FAULTY(r->deadline = MOST_DEADLINE + 1);
    FAULTY(r->step_count = 0);
    FAULTY(r->step_count = MOST_STEPS + 1);
    FAULTY(r->window_count = MOST_WINDOWS + 1);
    FAULTY(r->steps[0].cost = 0);
    FAULTY(r->steps[3].cost = MOST_COST + 1);
    FAULTY(r->steps[0].wait = MOST_WAIT + 1);
    FAULTY(r->steps[3].wait = 1);
    FAULTY(r->windows[0].first = 0);
    FAULTY(r->windows[1].last = 0);
    FAULTY(r->windows[1].limit = 0);
}

/* Unused places that are not zero (3): of a row's steps and windows, and of the load's rows. */
static void ask_unused(struct asking *asking, const struct lent *lent, ask_lent *ask)
{
    FAULTY(r->steps[4].cost = 1);
    FAULTY(r->steps[7].wait = 1);
    FAULTY(r->windows[2].first = 1);
    FAULTY(r->windows[2].last = 1);
    FAULTY(r->windows[3].limit = 1);
    FAULTY(l.rows[2].identifier.number = 1);
    FAULTY(l.rows[2].box.number = 1);
    FAULTY(l.rows[2].phase = 1);
    FAULTY(l.rows[2].deadline = 1);
    FAULTY(l.rows[23].step_count = 1);
    FAULTY(l.rows[23].window_count = 1);
    FAULTY(l.rows[23].steps[0].cost = 1);
    FAULTY(l.rows[23].steps[7].wait = 1);
    FAULTY(l.rows[23].windows[0].first = 1);
    FAULTY(l.rows[23].windows[3].last = 1);
    FAULTY(l.rows[23].windows[3].limit = 1);
    FAULTY(l.row_count = 1);
}

/* Twins (4, 5), windows against their steps (6), limits against their chains (7). */
static void ask_between_places(struct asking *asking, const struct lent *lent, ask_lent *ask)
{
    FAULTY((r->identifier = l.rows[0].identifier, r->box = l.rows[0].box));
    FAULTY(r->windows[1].last = 3);
    FAULTY(r->windows[1].last = 5);
    FAULTY(r->windows[1].last = UINT8_MAX);
    FAULTY((r->windows[1].first = 1, r->windows[1].last = 2));
    FAULTY(r->windows[0].last = 4);
    FAULTY(l.rows[0].windows[0].limit = 3);
}

/* No fault, and then each number. */
static void ask_numbers(struct asking *asking, const struct lent *lent)
{
    IN_EVERY_TURN((void)l);
    IN_EVERY_TURN(l.row_count = MOST_ROWS + 1);
    IN_EVERY_TURN(l.rows[23].phase = 1);
    IN_EVERY_TURN(r->identifier = l.rows[0].identifier);
    IN_EVERY_TURN(r->box = l.rows[0].box);
    IN_EVERY_TURN(r->windows[1].first = 2);
    IN_EVERY_TURN(r->windows[1].limit = 4);
}

/* No rows: Done from any shaped state, at a full clock too, and no slots are right. */
static void ask_no_rows(struct asking *asking)
{
    struct load none = {0};
    struct asked_slots list = {0, {{1, 1, 0}}};
    static const uint32_t clocks[] = {0, 5, LAST_MOMENT, LAST_MOMENT + 1};
    for (unsigned place = 0; place < 4; place++) {
        struct bench state = {.clock = clocks[place]};
        ask_move_of(asking, &none, &state);
    }
    for (; list.count <= 1; list.count++)
        ask_check_of(asking, &none, &list);
}

void ask_each_fault(struct asking *asking, ask_lent *ask)
{
    struct lent lent = sound_lent();
    ask_ranges(asking, &lent, ask);
    ask_unused(asking, &lent, ask);
    ask_between_places(asking, &lent, ask);
}

void ask_faulty_loads(struct asking *asking)
{
    struct lent lent = sound_lent();
    ask_no_rows(asking);
    ask_numbers(asking, &lent);
    ask_each_fault(asking, ask_next_turn);
}
