/* The factory identifier in load files (21): after every 3 of its row's own fields, before 4 and 5,
   and before all that stands behind its row record. */
#include "questions.h"

/* One row of one step. */
static const struct load ONE_ROW = {1, {
    {{UINT32_MAX}, {201}, 0, MOST_DEADLINE, 1, 0, 0, 1, {{1, 0}}, {{0, 0, 0}}},
}};

/* 2 w4 2 (window 1 to 2) / 3 / 2 w1 1 (window 1 to 2): row 2 has it. */
static const struct load THREE_ROWS = {3, {
    {{101}, {201}, 0, MOST_DEADLINE, 2, 1, 0, 1, {{2, 4}, {2, 0}}, {{1, 2, 8}}},
    {{UINT32_MAX}, {202}, 0, MOST_DEADLINE, 1, 0, 0, 1, {{3, 0}}, {{0, 0, 0}}},
    {{103}, {203}, 0, MOST_DEADLINE, 2, 1, 0, 1, {{2, 1}, {1, 0}}, {{1, 2, 6}}},
}};

/* Each line alters a load, a, b and c being its rows. */
#define MADE(base, places) \
    do { \
        struct load l = base; \
        struct row *a = &l.rows[0], *b = &l.rows[1], *c = &l.rows[2]; \
        (void)a, (void)b, (void)c; \
        places; \
        struct asked_file file = file_of(&l); \
        ask_report(asking, &file); \
    } while (0)

/* Both sides of its edge, and faults of the same row. */
static void ask_alone(struct asking *asking)
{
    MADE(ONE_ROW, (void)a);
    MADE(ONE_ROW, a->identifier.number--);
    MADE(ONE_ROW, (a->identifier.number--, a->box.number = UINT32_MAX));
    MADE(ONE_ROW, a->box.number = UINT32_MAX);
    MADE(ONE_ROW, a->box.number = 0);
    MADE(ONE_ROW, a->phase = MOST_PHASE + 1);
    MADE(ONE_ROW, a->deadline = 0);
    MADE(ONE_ROW, a->deadline = MOST_DEADLINE + 1);
    MADE(ONE_ROW, a->step_count = 0);
    MADE(ONE_ROW, a->steps[0].cost = 0);
    MADE(ONE_ROW, a->steps[0].wait = 1);
}

/* The first row that is faulty decides, by its first fault. */
static void ask_among_rows(struct asking *asking)
{
    MADE(THREE_ROWS, c->deadline = 0);
    MADE(THREE_ROWS, a->identifier = b->identifier);
    MADE(THREE_ROWS, b->box = a->box);
    MADE(THREE_ROWS, a->steps[0].cost = 0);
    MADE(THREE_ROWS, a->windows[0].limit = 7);
    MADE(THREE_ROWS, (c->identifier = b->identifier, b->identifier = a->identifier));
    MADE(THREE_ROWS, (c->identifier = b->identifier, b->identifier.number--, b->box = a->box));
    MADE(THREE_ROWS, (a->identifier = b->identifier, a->windows[0].last = 3));
    MADE(THREE_ROWS, (a->identifier = b->identifier, a->windows[0].limit = 7));
}

/* One byte of the one row's file: version, the row's mark, counts that do not fit, a window that is
   not there, the end count. */
static void ask_bytes(struct asking *asking)
{
    static const struct { size_t at; uint8_t byte; } bytes[] = {
        {2, 2}, {2, 3}, {HEADER_BYTES + 1, 0}, {HEADER_BYTES + 18, MOST_STEPS + 1},
        {HEADER_BYTES + 19, MOST_WINDOWS + 1}, {HEADER_BYTES + 19, 1},
        {HEADER_BYTES + ROW_BYTES + STEP_BYTES + 2, 2},
    };
    for (unsigned place = 0; place < sizeof bytes / sizeof bytes[0]; place++) {
        struct asked_file file = file_of(&ONE_ROW);
        file.bytes[bytes[place].at] = bytes[place].byte;
        ask_report(asking, &file);
    }
}

/* The file ends inside the row record, behind it, and a byte too late. */
static void ask_lengths(struct asking *asking)
{
    struct asked_file file = file_of(&ONE_ROW);
    const size_t lengths[] = {HEADER_BYTES + ROW_BYTES - 1, HEADER_BYTES + ROW_BYTES,
                              file.length + 1};
    for (unsigned place = 0; place < sizeof lengths / sizeof lengths[0]; place++) {
        file.length = lengths[place];
        ask_report(asking, &file);
    }
}

/* The file's number comes first, whatever the state (10, 11) or the list (12, 13). */
static void ask_with_what_is_lent(struct asking *asking, const struct load *load)
{
    static const uint32_t clocks[] = {0, LAST_MOMENT, LAST_MOMENT + 1};
    struct asked_file file = file_of(load);
    struct asked_slots list = {0, {{1, 1, 0}}};
    ask_blame(asking, &file);
    for (unsigned place = 0; place < sizeof clocks / sizeof clocks[0]; place++) {
        struct bench state = {.clock = clocks[place]};
        ask_move(asking, &file, &state);
    }
    for (; list.count <= 1; list.count++)
        ask_check(asking, &file, &list);
}

void ask_factory_files(struct asking *asking)
{
    ask_alone(asking);
    ask_among_rows(asking);
    ask_bytes(asking);
    ask_lengths(asking);
    ask_with_what_is_lent(asking, &ONE_ROW);
    ask_with_what_is_lent(asking, &THREE_ROWS);
}
