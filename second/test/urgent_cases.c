/* Classes and heads (2026-05) of loads in memory: what is refused (3), what version 1 and sheets
   cannot carry (22), and what does not see the class. Who goes first is in turn_cases.c. */
#include <string.h>

#include "bound.h"
#include "cases.h"
#include "load_file.h"
#include "schedule.h"
#include "sheet.h"

enum { STAYS = 0xAA };

/* Where a load is written to, and how. */
typedef enum refusal writer(const struct load *load, uint8_t *bytes, size_t room, size_t *written);

static bool all_stay(const uint8_t *bytes, size_t length)
{
    for (size_t at = 0; at < length; at++)
        if (bytes[at] != STAYS)
            return false;
    return true;
}

/* The same number with all the room there is and with none, and no byte is written. */
static void refused_by(struct tally *tally, const char *what, long wanted, const struct load *load,
                       writer *write)
{
    uint8_t bytes[MOST_SHEET_BYTES];
    size_t written = 1, unwritten = 1;
    memset(bytes, STAYS, sizeof bytes);
    same(tally, what, wanted, write(load, bytes, sizeof bytes, &written));
    same(tally, what, wanted, write(load, bytes, 0, &unwritten));
    same(tally, what, 1, all_stay(bytes, sizeof bytes));
    same(tally, what, 0, (long)(written + unwritten));
}

/* 9 with no room, and else it is written. */
static void carried(struct tally *tally, const char *what, const struct load *load)
{
    uint8_t bytes[MOST_LOAD_BYTES];
    size_t written;
    same(tally, what, 9, write_version_2(load, bytes, 0, &written));
    same(tally, what, 0, write_version_2(load, bytes, sizeof bytes, &written));
}

static void in_memory(struct tally *tally, const char *what, long wanted, const struct load *load)
{
    same(tally, what, wanted, check_load(load));
}

/* The load's own number, whatever is asked. */
static void faulty(struct tally *tally, const char *what, long wanted, const struct load *load)
{
    in_memory(tally, what, wanted, load);
    refused_by(tally, what, wanted, load, write_version_1);
    refused_by(tally, what, wanted, load, write_version_2);
    refused_by(tally, what, wanted, load, write_sheet);
}

/* A good load that only version 2 can carry. */
static void not_carried(struct tally *tally, const char *what, const struct load *load)
{
    in_memory(tally, what, 0, load);
    refused_by(tally, what, 22, load, write_version_1);
    refused_by(tally, what, 22, load, write_sheet);
    carried(tally, what, load);
}

/* Each line alters load B. */
#define MADE(hold, place) \
    do { \
        struct load l = load_b(); \
        struct row *a = &l.rows[0], *b = &l.rows[1], *c = &l.rows[2]; \
        (void)a, (void)b, (void)c; \
        place; \
        hold; \
    } while (0)

#define ACCEPTED_IN_MEMORY(place) MADE(in_memory(tally, #place, 0, &l), place)
#define FAULTY(wanted, place) MADE(faulty(tally, #place, wanted, &l), place)
#define NOT_CARRIED(place) MADE(not_carried(tally, #place, &l), place)

static void range_cases(struct tally *tally)
{
    ACCEPTED_IN_MEMORY(b->class = 0);
    ACCEPTED_IN_MEMORY(b->class = 1);
    ACCEPTED_IN_MEMORY(b->class = 2);
    ACCEPTED_IN_MEMORY(b->class = 3);
    FAULTY(3, b->class = 4);
    FAULTY(3, b->class = 255);
    FAULTY(3, b->head = 0);
    FAULTY(3, b->head = 2);
    FAULTY(3, b->head = 255);
    FAULTY(3, (b->class = 1, b->head = 0));
    FAULTY(3, l.rows[3].class = 1);
    FAULTY(3, l.rows[3].head = 1);
    FAULTY(3, l.rows[23].class = 3);
    FAULTY(3, l.rows[23].head = 1);
}

/* In the row's own fields, so before 21, 4 and 5 of the row and after all of the row before. */
static void order_cases(struct tally *tally)
{
    FAULTY(3, (b->class = 4, b->identifier.number = UINT32_MAX));
    FAULTY(3, (b->head = 2, b->identifier.number = UINT32_MAX));
    FAULTY(3, (b->class = 4, b->identifier = a->identifier));
    FAULTY(3, (b->head = 0, b->box = a->box));
    FAULTY(7, (b->class = 4, a->windows[0].limit = 7));
    FAULTY(6, (b->head = 0, a->windows[0].last = 3));
    FAULTY(3, (a->class = 4, a->windows[0].limit = 7));
    FAULTY(4, (b->identifier = a->identifier, c->head = 2));
    FAULTY(5, (b->box = a->box, l.rows[3].head = 1));
}

/* 22 is asked of the whole load, after all of its own numbers. */
static void carried_cases(struct tally *tally)
{
    NOT_CARRIED(a->class = 1);
    NOT_CARRIED(b->class = 2);
    NOT_CARRIED(c->class = 3);
    NOT_CARRIED((a->class = 3, b->class = 3, c->class = 3));
    FAULTY(3, (a->class = 1, b->deadline = 0));
    FAULTY(3, (a->class = 1, c->steps[0].cost = 601));
    FAULTY(21, (a->class = 1, b->identifier.number = UINT32_MAX));
    FAULTY(4, (a->class = 1, b->identifier = a->identifier));
    FAULTY(5, (a->class = 1, b->box = a->box));
    FAULTY(6, (a->class = 1, c->windows[0].last = 3));
    FAULTY(7, (a->class = 1, c->windows[0].limit = 3));
    FAULTY(3, (a->class = 1, l.rows[23].phase = 1));
    FAULTY(3, (a->class = 1, c->class = 4));
    FAULTY(3, (a->class = 1, c->head = 2));
}

/* Every other call takes a class, and neither bound nor margins see it. */
static void unseen_cases(struct tally *tally)
{
    struct load load = urgent_a();
    uint32_t bound;
    int32_t margins[MOST_ROWS];
    struct blame blames[MOST_ROWS];
    bool yes = true;
    same(tally, "bound", 0, bound_of(&load, &bound));
    same(tally, "of A", 19, (long)bound);
    same(tally, "margins", 0, margins_of(&load, margins));
    same(tally, "margin of row 1", 1, margins[0]);
    same(tally, "of row 2", 0, margins[1]);
    same(tally, "of row 3", -1, margins[2]);
    same(tally, "verdict", 0, verdict_of(&load, &yes));
    same(tally, "no", 0, yes);
    same(tally, "blames", 0, blames_of(&load, blames));
    same(tally, "place", 1, blames[2].place);
    same(tally, "row", 1, blames[2].row);
    struct run run = run_of(&load);
    same(tally, "run", 0, run.refusal);
    same(tally, "all steps", 6, run.slot_count);
    same(tally, "check, which does not ask who is first", 0,
         check_schedule(&load, (const struct slot[]){{1, 1, 0}, {2, 1, 2}, {3, 1, 3}, {2, 2, 7},
                                                     {3, 2, 9}, {1, 2, 12}}, 6));
    same(tally, "move", 0, move_of(&load, (struct bench){0}).refusal);
}

void urgent_cases(struct tally *tally)
{
    range_cases(tally);
    order_cases(tally);
    carried_cases(tally);
    unseen_cases(tally);
}
