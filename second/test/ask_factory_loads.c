/* The factory identifier in loads in memory (21), for every letter that takes one: before 9, 10, 11
   and 12; in an unused row it is 3. */
#include "questions.h"

enum { FEW = 9 };

/* 2 w4 2 (window 1 to 2) / 2 w1 1 (window 1 to 2): row 2 has it. */
static const struct load TWO_ROWS = {2, {
    {{101}, {201}, 0, 99, 2, 1, 0, 1, {{2, 4}, {2, 0}}, {{1, 2, 8}}},
    {{UINT32_MAX}, {202}, 0, 99, 2, 1, 0, 1, {{2, 1}, {1, 0}}, {{1, 2, 6}}},
}};

/* Each line alters a load, a being its row 1, b its row 2 and z its row 24. */
#define MADE(places) \
    do { \
        struct load l = TWO_ROWS; \
        struct row *a = &l.rows[0], *b = &l.rows[1], *z = &l.rows[MOST_ROWS - 1]; \
        (void)a, (void)b, (void)z; \
        places; \
        ask(asking, &l); \
    } while (0)

/* Every 3 of the row's own fields comes first. */
static void ask_own_fields(struct asking *asking, ask_of_load *ask)
{
    MADE((void)b);
    MADE(b->box.number = 0);
    MADE(b->phase = MOST_PHASE + 1);
    MADE(b->deadline = MOST_DEADLINE + 1);
    MADE(b->step_count = MOST_STEPS + 1);
    MADE(b->window_count = MOST_WINDOWS + 1);
}

/* Before 5 and the steps; before 7 in its row, and in both rows; in an unused row alone; after 7 in
   the row before; and the largest numbers that are accepted. */
static void ask_orders(struct asking *asking, ask_of_load *ask)
{
    MADE((b->box = a->box, b->steps[0].cost = 0));
    MADE((a->identifier = b->identifier, a->windows[0].limit = 7));
    MADE((z->identifier = b->identifier, b->identifier.number--));
    MADE(a->windows[0].limit = 7);
    MADE((b->identifier.number--, b->box.number = UINT32_MAX));
}

/* States and lists that are refused for themselves. */
static void ask_with_what_is_lent(struct asking *asking)
{
    static const uint32_t clocks[] = {0, LAST_MOMENT, LAST_MOMENT + 1};
    struct load early = TWO_ROWS;
    struct bench state = {0};
    struct asked_slots list = {0};
    for (unsigned place = 0; place < sizeof clocks / sizeof clocks[0]; place++) {
        state.clock = clocks[place];
        ask_move_of(asking, &TWO_ROWS, &state);
    }
    ask_check_of(asking, &TWO_ROWS, &list);
    early.rows[1].deadline = 0;
    ask_move_of(asking, &early, &state);
    ask_check_of(asking, &early, &list);
    list = (struct asked_slots){4, {{1, 1, 0}, {1, 2, 6}, {2, 1, 8}, {2, 2, 11}}};
    ask_check_of(asking, &TWO_ROWS, &list);
}

void ask_factory_loads(struct asking *asking)
{
    ask_own_fields(asking, ask_load);
    ask_with_what_is_lent(asking);
    ask_load_in_room(asking, 0, &TWO_ROWS);
    ask_load_in_room(asking, MOST_ASKED_ROOM, &TWO_ROWS);
}

void ask_factory_places(struct asking *asking)
{
    ask_places(asking, &TWO_ROWS);
    ask_orders(asking, ask_places);
}

void ask_factory_exports(struct asking *asking)
{
    ask_orders(asking, ask_export);
    ask_export_in_room(asking, 0, &TWO_ROWS);
    ask_export_in_room(asking, FEW, &TWO_ROWS);
}
