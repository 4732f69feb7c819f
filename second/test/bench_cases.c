/* Single moves, from fresh and from lent states: 10 and 11, and what starts. */
#include "bench.h"
#include "cases.h"

#define MOVED(number, place) \
    do { \
        struct bench s = base; \
        place; \
        struct move m = move_of(&load, s); \
        same(tally, "move: " #place, number, m.refusal); \
        same(tally, "given back: " #place, 0, number == 0 ? 0 : (long)m.lamps \
             + (m.state.clock != s.clock) + (m.outcome != NO_MOVE)); \
    } while (0)

/* Load B with row 1's window open since 1 and row 2 not begun. */
static void shape_cases(struct tally *tally)
{
    struct load load = load_b();
    struct bench base = {10, {{1, 3, 1}}};
    MOVED(0, (void)s);
    MOVED(0, s.rows[0].opening = 3);
    MOVED(10, s.rows[0].opening = 4);
    MOVED(10, s.rows[0].end = 11);
    MOVED(10, s.rows[0].finished = 3);
    MOVED(10, s.rows[0].finished = 2);
    MOVED(0, (s.rows[0].finished = 2, s.rows[0].opening = 0));
    MOVED(10, s.rows[1].end = 1);
    MOVED(10, s.rows[1].opening = 1);
    MOVED(10, s.rows[3].end = 1);
    MOVED(10, s.rows[23].finished = 1);
    MOVED(0, s.clock = 999999);
    MOVED(11, s.clock = 1000000);
    MOVED(10, s.clock = 1000001);
    MOVED(10, (s.clock = 1000000, s.rows[1].opening = 1));
    load.rows[0].windows[0].limit = 7;
    MOVED(7, (s.clock = 1000001, (void)s));
}

static void move_cases(struct tally *tally)
{
    struct load load = load_b();
    struct move move = move_of(&load, (struct bench){0});
    same(tally, "first move starts", START, move.outcome);
    same(tally, "row 1's lamp", 1, (long)move.lamps);
    move = move_of(&load, move.state);
    same(tally, "second move starts row 2", 2, move.slot.row);
    move = move_of(&load, move.state);
    same(tally, "row 3 would lose row 1's window: idle", IDLE, move.outcome);
    same(tally, "one tick", 6, (long)move.state.clock);
    struct bench all = {1000000, {{2, 9, 0}, {1, 9, 0}, {2, 9, 0}}};
    same(tally, "Done at the last moment", DONE, move_of(&load, all).outcome);
    struct bench last = {999998, {{2, 9, 0}, {1, 9, 0}, {0, 0, 0}}};
    same(tally, "ends just at 1,000,000", START, move_of(&load, last).outcome);
    last.clock = 999999;
    same(tally, "would end after it", IDLE, move_of(&load, last).outcome);
    struct bench lost = {100, {{1, 3, 1}, {1, 9, 0}, {1, 9, 7}}};
    same(tally, "both windows lost: row 1 first leaves row 3 lost", IDLE,
         move_of(&load, lost).outcome);
    struct bench late = {100, {{1, 3, 1}, {1, 9, 0}, {2, 9, 0}}};
    move = move_of(&load, late);
    same(tally, "a lost window's last step is not asked for itself", START, move.outcome);
    same(tally, "no lamp is left", 0, (long)move.lamp_count);
}

static long run_start(struct load load, unsigned place)
{
    struct run run = run_of(&load);
    return place < run.slot_count ? (long)run.slots[place].start : -1;
}

/* The mistakes this trade would make. */
static void mistake_cases(struct tally *tally)
{
    struct load unreleased = {2, {
        {{101}, {201}, 0, 1000000, 2, 0, 0, 1, {{1, 0}, {1, 0}}, {{0, 0, 0}}},
        {{102}, {202}, 10, 1000000, 1, 0, 0, 1, {{1, 0}}, {{0, 0, 0}}},
    }};
    same(tally, "step 2 stays until row 2 is released", 11, run_start(unreleased, 2));
    struct load waits = {1, {{{101}, {201}, 0, 9, 2, 0, 0, 1, {{3, 4}, {1, 0}}, {{0, 0, 0}}}}};
    same(tally, "a wait counts from the end", 7, run_start(waits, 1));
    struct load exchanged = load_b();
    exchanged.rows[0].identifier.number = 203;
    exchanged.rows[2].box.number = 101;
    same(tally, "registers are separate", 0, check_load(&exchanged));
}

/* 1 w10 1 (limit 20) / 1 w1 1 (limit 4): row 2's window is due first and is planned first. */
static void stack_cases(struct tally *tally)
{
    struct load load = {2, {
        {{101}, {201}, 0, 1000000, 2, 1, 0, 1, {{1, 10}, {1, 0}}, {{1, 2, 20}}},
        {{102}, {202}, 0, 1000000, 2, 1, 0, 1, {{1, 1}, {1, 0}}, {{1, 2, 4}}},
    }};
    same(tally, "row 2 opens within row 1's window", 1, run_start(load, 1));
    same(tally, "row 2 ends first", 3, run_start(load, 2));
    same(tally, "row 1 after its wait", 11, run_start(load, 3));
    struct move move = move_of(&load, (struct bench){1, {{1, 1, 0}}});
    same(tally, "two lamps", 3, (long)move.lamps);
    same(tally, "two counted", 2, (long)move.lamp_count);
}

/* Both windows are due at 6: row 1 is planned first, from 5 to 6, and leaves row 2 late. */
static void tie_cases(struct tally *tally)
{
    struct load load = {3, {
        {{101}, {201}, 0, 1000000, 2, 1, 0, 1, {{1, 4}, {1, 0}}, {{1, 2, 6}}},
        {{102}, {202}, 0, 1000000, 2, 1, 0, 1, {{1, 1}, {1, 0}}, {{1, 2, 6}}},
        {{103}, {203}, 0, 1000000, 1, 0, 0, 1, {{1, 0}}, {{0, 0, 0}}},
    }};
    struct bench state = {1, {{1, 1, 0}, {1, 1, 0}}};
    same(tally, "row 3 is not passed", IDLE, move_of(&load, state).outcome);
    state.clock = 2;
    same(tally, "row 2 ends its window", 2, move_of(&load, state).slot.row);
}

/* 1 w0 1 (limit 9) / 1: at 1 row 1's step 2 is a candidate too, but row 2's step is a first one. */
static void order_cases(struct tally *tally)
{
    struct load load = {2, {
        {{101}, {201}, 0, 1000000, 2, 1, 0, 1, {{1, 0}, {1, 0}}, {{1, 2, 9}}},
        {{102}, {202}, 0, 1000000, 1, 0, 0, 1, {{1, 0}}, {{0, 0, 0}}},
    }};
    struct move move = move_of(&load, (struct bench){1, {{1, 1, 0}}});
    same(tally, "by step number, then row", 2, move.slot.row);
    same(tally, "row 1's window stays open", 1, (long)move.lamps);
}

/* 1 w0 5 / 1 and 2 / 1, windows open since 0 and 1, the clock at 2: the row that starts. */
static unsigned starts_at_2(uint16_t limit_1, uint16_t wait_2, uint16_t limit_2)
{
    struct load load = {3, {
        {{101}, {201}, 0, 1000000, 2, 1, 0, 1, {{1, 0}, {5, 0}}, {{1, 2, limit_1}}},
        {{102}, {202}, 0, 1000000, 2, 1, 0, 1, {{1, wait_2}, {2, 0}}, {{1, 2, limit_2}}},
        {{103}, {203}, 0, 1000000, 1, 0, 0, 1, {{1, 0}}, {{0, 0, 0}}},
    }};
    return move_of(&load, (struct bench){2, {{1, 1, 0}, {1, 2, 1}}}).slot.row;
}

/* Row 2 is due before row 1 in both: planned first it is finished at 5, and by row it would be late
   at 10; with wait 13 it is finished at 17 and row 1 is late at 22, and by row neither would be. */
static void due_cases(struct tally *tally)
{
    same(tally, "dues 30 and 9", 3, starts_at_2(30, 0, 8));
    same(tally, "dues 21 and 20", 1, starts_at_2(21, 13, 19));
}

void bench_cases(struct tally *tally)
{
    shape_cases(tally);
    move_cases(tally);
    mistake_cases(tally);
    stack_cases(tally);
    tie_cases(tally);
    order_cases(tally);
    due_cases(tally);
}
