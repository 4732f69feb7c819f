/* Classes and heads in loads in memory, for every letter that takes one: out of range and in unused
   rows (3); and what version 1 and sheets cannot carry (22), after the load's own numbers and
   before 9. */
#include "questions.h"

enum { URGENT_MOVES = 8, URGENT_LISTS = 3, URGENT_FILES = 6, SPOILED_FILES = 4, FEW = 9,
       MUCH_MORE = 40 };

/* 2 w4 2 (window 1 to 2) / 2 w1 1 (window 1 to 2). */
static const struct load TWO_ROWS = {2, {
    {{101}, {201}, 0, 99, 2, 1, 0, 1, {{2, 4}, {2, 0}}, {{1, 2, 8}}},
    {{102}, {202}, 0, 99, 2, 1, 0, 1, {{2, 1}, {1, 0}}, {{1, 2, 6}}},
}};

/* Each line alters a load, a and b being its rows, c and z its rows 3 and 24, which are unused. */
#define MADE(places) \
    do { \
        struct load l = TWO_ROWS; \
        struct row *a = &l.rows[0], *b = &l.rows[1], *c = &l.rows[2], *z = &l.rows[MOST_ROWS - 1]; \
        (void)a, (void)b, (void)c, (void)z; \
        places; \
        ask(asking, &l); \
    } while (0)

/* Used rows: before 21 and 4, after 7 in the row before. */
static void ask_ranges(struct asking *asking, ask_of_load *ask)
{
    MADE(b->class = MOST_CLASS + 1);
    MADE(b->class = UINT8_MAX);
    MADE(b->head = 0);
    MADE(b->head = 2);
    MADE((b->class = MOST_CLASS + 1, b->identifier.number = UINT32_MAX));
    MADE((b->head = 2, b->identifier = a->identifier));
    MADE((b->head = 0, a->windows[0].limit = 7));
}

/* Unused rows, where a head of 1 is as wrong as any. */
static void ask_unused(struct asking *asking, ask_of_load *ask)
{
    MADE(c->class = 1);
    MADE(c->head = 1);
    MADE(z->class = MOST_CLASS);
    MADE(z->head = 1);
}

/* Every class that there is, in either row. */
static void ask_classes(struct asking *asking, ask_of_load *ask)
{
    MADE(a->class = 1);
    MADE(b->class = 2);
    MADE((a->class = MOST_CLASS, b->class = MOST_CLASS));
}

/* Row 1 has a class, and row 2 a fault: the load's own number is asked of all its rows first. */
static void ask_faults_behind(struct asking *asking, ask_of_load *ask)
{
    MADE((a->class = 1, b->deadline = 0));
    MADE((a->class = 1, b->identifier.number = UINT32_MAX));
    MADE((a->class = 1, b->identifier = a->identifier));
    MADE((a->class = 1, b->box = a->box));
    MADE((a->class = 1, b->windows[0].last = 3));
    MADE((a->class = 1, b->windows[0].limit = 3));
    MADE((a->class = 1, z->phase = 1));
    MADE((a->class = 1, b->class = MOST_CLASS + 1));
    MADE((a->class = 1, b->head = 2));
}

static struct load urgent_load(void)
{
    struct load load = TWO_ROWS;
    load.rows[1].class = MOST_CLASS;
    return load;
}

/* A class is no reason to refuse a move or a list. */
static void ask_moves_and_lists(struct asking *asking)
{
    struct load load;
    struct asked_slots list;
    for (unsigned times = 0; times < URGENT_MOVES; times++) {
        load = any_load(&asking->dice, SMALL_SIZES);
        set_classes(&asking->dice, &load);
        struct bench state = times % 2 == 0 ? (struct bench){0}
                                            : tight_state(&asking->dice, &load);
        ask_move_of(asking, &load, &state);
    }
    for (unsigned times = 0; times < URGENT_LISTS; times++) {
        load = any_load(&asking->dice, SMALL_SIZES);
        set_classes(&asking->dice, &load);
        list = slots_of(&load);
        ask_check_of(asking, &load, &list);
    }
}

/* The load's number, whatever the state (10, 11) or the list (12). */
static void ask_fault_with_what_is_lent(struct asking *asking, const struct load *load)
{
    struct bench state = {.clock = LAST_MOMENT + 1};
    struct asked_slots list = {0};
    ask_move_of(asking, load, &state);
    ask_check_of(asking, load, &list);
}

static void ask_faults_with_what_is_lent(struct asking *asking)
{
    struct load load = TWO_ROWS;
    load.rows[1].class = MOST_CLASS + 1;
    ask_fault_with_what_is_lent(asking, &load);
    load = TWO_ROWS;
    load.rows[0].head = 2;
    ask_fault_with_what_is_lent(asking, &load);
    load = TWO_ROWS;
    load.rows[2].head = 1;
    ask_fault_with_what_is_lent(asking, &load);
}

void ask_urgent_loads(struct asking *asking)
{
    struct load load = urgent_load();
    ask_moves_and_lists(asking);
    ask_faults_with_what_is_lent(asking);
    ask_ranges(asking, ask_load);
    ask_unused(asking, ask_load);
    ask_classes(asking, ask_load);
    ask_faults_behind(asking, ask_load);
    ask_load_in_room(asking, 0, &load);
    ask_load_in_room(asking, FEW, &load);
    ask_load_in_room(asking, MOST_ASKED_ROOM, &load);
}

/* Sound loads and spoiled ones, which version 2 carries whatever their classes. */
static void ask_any_files(struct asking *asking)
{
    struct load none = {0};
    struct load full = load_with(&asking->dice, MOST_ROWS, MOST_STEPS, MOST_WINDOWS);
    set_classes(&asking->dice, &full);
    ask_version_2(asking, &TWO_ROWS);
    ask_version_2(asking, &none);
    ask_version_2(asking, &full);
    for (unsigned times = 0; times < URGENT_FILES + SPOILED_FILES; times++) {
        struct load load = any_load(&asking->dice, QUICK_SIZES);
        set_classes(&asking->dice, &load);
        if (times >= URGENT_FILES)
            spoil(&asking->dice, &load);
        ask_version_2(asking, &load);
    }
}

static void ask_file_in_rooms(struct asking *asking, const struct load *load)
{
    size_t length = load_bytes(load, VERSION_2);
    const size_t rooms[] = {0, length - 1, length, length + 1, length + MUCH_MORE};
    for (unsigned place = 0; place < sizeof rooms / sizeof rooms[0]; place++)
        ask_version_2_in_room(asking, rooms[place], load);
}

static void ask_file_rooms(struct asking *asking)
{
    struct load none = {0}, urgent = urgent_load(), faulty = TWO_ROWS;
    struct load full = load_with(&asking->dice, MOST_ROWS, MOST_STEPS, MOST_WINDOWS);
    set_classes(&asking->dice, &full);
    faulty.rows[1].head = 2;
    ask_file_in_rooms(asking, &none);
    ask_file_in_rooms(asking, &urgent);
    ask_file_in_rooms(asking, &full);
    ask_version_2_in_room(asking, MOST_ASKED_ROOM, &urgent);
    ask_version_2_in_room(asking, load_bytes(&TWO_ROWS, VERSION_1), &TWO_ROWS);
    ask_version_2_in_room(asking, 0, &faulty);
    ask_version_2_in_room(asking, FEW, &faulty);
}

void ask_urgent_files(struct asking *asking)
{
    ask_ranges(asking, ask_version_2);
    ask_unused(asking, ask_version_2);
    ask_classes(asking, ask_version_2);
    ask_faults_behind(asking, ask_version_2);
    ask_any_files(asking);
    ask_file_rooms(asking);
}

void ask_urgent_places(struct asking *asking)
{
    ask_ranges(asking, ask_places);
    ask_unused(asking, ask_places);
    ask_classes(asking, ask_places);
}

void ask_urgent_exports(struct asking *asking)
{
    struct load load = urgent_load();
    ask_classes(asking, ask_export);
    ask_faults_behind(asking, ask_export);
    ask_export_in_room(asking, 0, &load);
    ask_export_in_room(asking, FEW, &load);
    ask_export_in_room(asking, 256, &load);
}
