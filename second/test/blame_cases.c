/* Blames worked by hand, and what rows not there and refused loads get. */
#include "cases.h"
#include "worked.h"

static void same_place(struct tally *tally, const char *name, struct place_w wanted,
                       struct place_w found)
{
    same(tally, name, (long)wanted.w, (long)found.w);
    same(tally, name, wanted.row, found.row);
}

static void same_blame(struct tally *tally, const char *name, struct blame wanted,
                       struct blame found)
{
    same(tally, name, wanted.place, found.place);
    same(tally, name, wanted.row, found.row);
}

static void worked_places(struct tally *tally, const struct worked *worked)
{
    struct place_w places[MOST_PLACES];
    same(tally, worked->name, ACCEPTED, places_of(&worked->load, places));
    for (unsigned j = 1; j <= MOST_PLACES; j++)
        same_place(tally, worked->name, worked->places[j - 1], places[j - 1]);
}

static void worked_rows(struct tally *tally, const struct worked *worked)
{
    int32_t margins[MOST_ROWS];
    struct blame blames[MOST_ROWS];
    same(tally, worked->name, ACCEPTED, margins_of(&worked->load, margins));
    same(tally, worked->name, ACCEPTED, blames_of(&worked->load, blames));
    for (unsigned row = 1; row <= WORKED_ROWS; row++) {
        same(tally, worked->name, worked->margins[row - 1], margins[row - 1]);
        same_blame(tally, worked->name, worked->blames[row - 1], blames[row - 1]);
    }
}

static void nothing_blamed(struct tally *tally, const char *name, const struct load *load,
                           enum refusal refusal)
{
    struct place_w places[MOST_PLACES];
    struct blame blames[MOST_ROWS];
    same(tally, name, refusal, places_of(load, places));
    same(tally, name, refusal, blames_of(load, blames));
    for (unsigned j = 1; j <= MOST_PLACES; j++)
        same_place(tally, name, (struct place_w){0, 0}, places[j - 1]);
    for (unsigned row = 1; row <= MOST_ROWS; row++)
        same_blame(tally, name, (struct blame){0, 0}, blames[row - 1]);
}

/* A has something to blame, so that a refused A shows that nothing of it is given. */
static void nothing_to_blame_cases(struct tally *tally)
{
    struct load none = {0};
    struct load faulty = WORKED[0].load;
    struct load limit_7 = load_b();
    nothing_blamed(tally, "no rows", &none, ACCEPTED);
    limit_7.rows[0].windows[0].limit = 7;
    nothing_blamed(tally, "B with limit 7", &limit_7, LIMIT_BELOW_CHAIN);
    faulty.rows[2].box = faulty.rows[0].box;
    nothing_blamed(tally, "A with a box twice", &faulty, BOX_TAKEN);
    faulty.rows[2].identifier = faulty.rows[1].identifier;
    nothing_blamed(tally, "A with an identifier twice", &faulty, IDENTIFIER_TAKEN);
    faulty.rows[1].identifier.number = UINT32_MAX;
    nothing_blamed(tally, "A with the factory identifier", &faulty, FACTORY_IDENTIFIER);
    faulty.rows[0].steps[0].wait = MOST_WAIT + 1;
    nothing_blamed(tally, "A with wait 3,601", &faulty, OUT_OF_RANGE);
}

/* Rows not there give 0 and 0. */
static void rows_not_there_cases(struct tally *tally)
{
    struct blame blames[MOST_ROWS];
    blames_of(&WORKED[0].load, blames);
    for (unsigned row = WORKED_ROWS + 1; row <= MOST_ROWS; row++)
        same_blame(tally, "a row not there", (struct blame){0, 0}, blames[row - 1]);
}

void blame_cases(struct tally *tally)
{
    struct worked b = {"B: every wait is embedded", load_b(), {{0, 0}},
                       {999985, 999985, 999985}, {{0, 0}}};
    worked_places(tally, &b);
    worked_rows(tally, &b);
    for (unsigned at = 0; at < WORKED_LOADS; at++) {
        worked_places(tally, &WORKED[at]);
        worked_rows(tally, &WORKED[at]);
    }
    nothing_to_blame_cases(tally);
    rows_not_there_cases(tally);
}
