/* The factory identifier (21), even when alone: in files and loads in memory, and for every call
   that takes one. Route sheets with it are in worked_factory.c. */
#include <string.h>

#include "bound.h"
#include "calls.h"
#include "cases.h"
#include "load_file.h"
#include "schedule.h"
#include "sheet.h"

enum { FILE_BYTES = 34, STAYS = 0xAA };

/* One row, `1`: header at 0, row at 4, step at 24, end at 30. */
static const uint8_t FILE_OF_IT[FILE_BYTES] = {
    0x4C, 0x44, 1, 1,
    0x52, 0x57, 0xFF, 0xFF, 0xFF, 0xFF, 0xC9, 0, 0, 0, 0, 0, 0, 0, 0x40, 0x42, 0x0F, 0, 1, 0,
    0x53, 0x54, 1, 0, 0, 0,
    0x45, 0x4E, 1, 0,
};

static long reading(const uint8_t *bytes, size_t length)
{
    struct load load;
    return read_load(bytes, length, &load);
}

static long reading_with_byte(size_t at, uint8_t byte)
{
    uint8_t bytes[FILE_BYTES];
    memcpy(bytes, FILE_OF_IT, sizeof bytes);
    bytes[at] = byte;
    return reading(bytes, sizeof bytes);
}

static void file_cases(struct tally *tally)
{
    uint8_t longer[FILE_BYTES + 1] = {0};
    memcpy(longer, FILE_OF_IT, FILE_BYTES);
    same(tally, "alone", 21, reading(FILE_OF_IT, FILE_BYTES));
    same(tally, "4,294,967,294", 0, reading_with_byte(6, 0xFE));
    same(tally, "4,278,190,079", 0, reading_with_byte(9, 0xFE));
    same(tally, "a byte follows", 21, reading(longer, sizeof longer));
    for (size_t length = 24; length < FILE_BYTES; length++)
        same(tally, "cut behind the row record", 21, reading(FILE_OF_IT, length));
    for (size_t length = 0; length < 24; length++)
        same(tally, "cut before or inside it", 1, reading(FILE_OF_IT, length));
    same(tally, "version 3", 2, reading_with_byte(2, 3));
    same(tally, "version 2: the step's mark where class and head are", 3, reading_with_byte(2, 2));
    same(tally, "25 rows", 3, reading_with_byte(3, 25));
    same(tally, "its mark", 2, reading_with_byte(5, 0));
    same(tally, "phase 16,777,216", 3, reading_with_byte(17, 1));
    same(tally, "no steps", 3, reading_with_byte(22, 0));
    same(tally, "nine steps", 3, reading_with_byte(22, 9));
    same(tally, "five windows", 3, reading_with_byte(23, 5));
    same(tally, "one step too many", 21, reading_with_byte(22, 2));
    same(tally, "a window that is not there", 21, reading_with_byte(23, 1));
    same(tally, "the step's mark", 21, reading_with_byte(24, 0));
    same(tally, "cost 0", 21, reading_with_byte(26, 0));
    same(tally, "a last wait", 21, reading_with_byte(28, 1));
    same(tally, "end count", 21, reading_with_byte(32, 2));
}

static void in_memory(struct tally *tally, const char *what, long wanted, const struct load *load)
{
    same(tally, what, wanted, check_load(load));
}

static void in_both(struct tally *tally, const char *what, long wanted, const struct load *load)
{
    uint8_t bytes[MOST_LOAD_BYTES];
    in_memory(tally, what, wanted, load);
    same(tally, what, wanted, reading(bytes, (size_t)(put_load(bytes, load) - bytes)));
}

/* Each line alters load B, whose row 2 has it. */
#define MADE(hold, wanted, place) \
    do { \
        struct load l = load_b(); \
        struct row *a = &l.rows[0], *b = &l.rows[1], *c = &l.rows[2]; \
        b->identifier.number = UINT32_MAX; \
        (void)a, (void)c; \
        place; \
        hold(tally, #place, wanted, &l); \
    } while (0)

#define IN_MEMORY(wanted, place) MADE(in_memory, wanted, place)
#define IN_BOTH(wanted, place) MADE(in_both, wanted, place)

static void edge_cases(struct tally *tally)
{
    IN_BOTH(21, (void)b);
    IN_BOTH(0, b->identifier.number = UINT32_MAX - 1);
    IN_BOTH(0, (b->identifier.number = UINT32_MAX - 1, b->box.number = UINT32_MAX));
    IN_BOTH(0, (b->identifier.number = 102, b->box.number = UINT32_MAX));
    IN_BOTH(21, b->box.number = UINT32_MAX);
    IN_BOTH(21, a->identifier = b->identifier);
    IN_BOTH(21, (a->identifier = b->identifier, b->identifier.number = 102));
    IN_BOTH(21, (c->identifier = b->identifier, b->identifier.number = 102));
    IN_BOTH(4, (b->identifier.number = UINT32_MAX - 1, c->identifier = b->identifier));
    IN_MEMORY(3, (l.rows[3].identifier = b->identifier, b->identifier.number = 102));
    IN_MEMORY(3, (l.rows[23].identifier = b->identifier, b->identifier.number = 102));
    IN_MEMORY(21, l.rows[3].identifier = b->identifier);
}

/* After every 3 of the row's own fields; before 4 and 5, and before what stands behind them. */
static void order_cases(struct tally *tally)
{
    IN_BOTH(3, b->box.number = 0);
    IN_BOTH(3, b->phase = 86401);
    IN_BOTH(3, b->deadline = 0);
    IN_BOTH(3, b->deadline = 1000001);
    IN_BOTH(3, b->step_count = 0);
    IN_MEMORY(3, b->step_count = 9);
    IN_MEMORY(3, b->window_count = 5);
    IN_MEMORY(3, l.row_count = 25);
    IN_BOTH(21, b->box = a->box);
    IN_BOTH(21, b->steps[0].cost = 0);
    IN_BOTH(21, b->steps[0].wait = 1);
    IN_BOTH(21, (b->box = a->box, b->steps[0].cost = 601));
    IN_BOTH(21, (c->identifier = b->identifier, c->box = a->box));
    IN_BOTH(21, c->deadline = 0);
    IN_MEMORY(21, b->steps[7].cost = 1);
    IN_MEMORY(21, b->windows[0].first = 1);
    IN_MEMORY(21, l.rows[23].phase = 1);
    IN_BOTH(3, a->steps[0].cost = 0);
    IN_BOTH(6, a->windows[0].last = 3);
    IN_BOTH(7, a->windows[0].limit = 7);
    IN_BOTH(21, (a->identifier = b->identifier, a->windows[0].limit = 7));
    IN_BOTH(21, (a->identifier = b->identifier, a->windows[0].last = 3));
    IN_BOTH(4, (b->identifier = a->identifier, c->identifier.number = UINT32_MAX));
    IN_BOTH(5, (b->identifier.number = 102, b->box = a->box, c->identifier.number = UINT32_MAX));
}

static bool all_stay(const uint8_t *bytes, size_t length)
{
    for (size_t at = 0; at < length; at++)
        if (bytes[at] != STAYS)
            return false;
    return true;
}

/* Every call that takes a load: 21 comes before 9, 10 and 12. */
static void call_in_memory_cases(struct tally *tally)
{
    struct load load = load_b();
    uint8_t bytes[MOST_SHEET_BYTES];
    size_t written;
    uint32_t bound = 1, bounds[MOST_ROWS];
    int32_t margins[MOST_ROWS] = {1};
    bool yes = true;
    memset(bytes, STAYS, sizeof bytes);
    load.rows[2].identifier.number = UINT32_MAX;
    same(tally, "a file, no room", 21, write_version_1(&load, bytes, 0, &written));
    same(tally, "a file", 21, write_version_1(&load, bytes, sizeof bytes, &written));
    same(tally, "a sheet, no room", 21, write_sheet(&load, bytes, 0, &written));
    same(tally, "a sheet", 21, write_sheet(&load, bytes, sizeof bytes, &written));
    same(tally, "nothing written", 1, all_stay(bytes, sizeof bytes));
    same(tally, "bound", 21, bound_of(&load, &bound));
    same(tally, "row bounds", 21, row_bounds_of(&load, bounds));
    same(tally, "margins", 21, margins_of(&load, margins));
    same(tally, "verdict", 21, verdict_of(&load, &yes));
    same(tally, "bound 0", 0, (long)bound);
    same(tally, "margin 0", 0, margins[0]);
    same(tally, "verdict no", 0, yes);
    same(tally, "run", 21, run_of(&load).refusal);
    same(tally, "check of no slots", 21, check_schedule(&load, NULL, 0));
    same(tally, "a move", 21, move_of(&load, (struct bench){0}).refusal);
    same(tally, "a full clock", 21, move_of(&load, (struct bench){1000000, {{0}}}).refusal);
    struct move move = move_of(&load, (struct bench){1000001, {{0}}});
    same(tally, "a clock of no shape", 21, move.refusal);
    same(tally, "which is handed back", 1000001, (long)move.state.clock);
}

static void call_cases_of_file(struct tally *tally)
{
    uint8_t out[MARGINS_BYTES];
    memset(out, STAYS, sizeof out);
    same(tally, "bound", 21, (long)second_bound(FILE_OF_IT, FILE_BYTES, out, 0));
    same(tally, "verdict", 21, (long)second_verdict(FILE_OF_IT, FILE_BYTES, out, 0));
    same(tally, "margins", 21, (long)second_margins(FILE_OF_IT, FILE_BYTES, out, sizeof out));
    same(tally, "schedule", 21, (long)second_schedule(FILE_OF_IT, FILE_BYTES, out, sizeof out));
    same(tally, "nothing written", 1, all_stay(out, sizeof out));
}

void factory_cases(struct tally *tally)
{
    file_cases(tally);
    edge_cases(tally);
    order_cases(tally);
    call_in_memory_cases(tally);
    call_cases_of_file(tally);
}
