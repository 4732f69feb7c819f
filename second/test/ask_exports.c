/* Loads in memory written as sheets: sound and faulty ones, and into rooms that are too short,
   exact and longer. */
#include "questions.h"
#include "sheet_loads.h"
#include "sheet_parts.h"
#include "worked.h"

enum { SOUND_EXPORTS = 24, MUCH_MORE = 40, FEW = 9 };

static void ask_numbered(struct asking *asking, struct load load)
{
    number_rows(&asking->dice, &load);
    ask_export(asking, &load);
}

static void ask_sound_exports(struct asking *asking)
{
    struct load none = {0}, longest = longest_load();
    ask_export(asking, &none);
    ask_export(asking, &longest);
    for (unsigned at = 0; at < WORKED_LOADS; at++)
        ask_export(asking, &WORKED[at].load);
    for (unsigned steps = 1; steps <= MOST_STEPS; steps++)
        ask_numbered(asking, load_with(&asking->dice, 2, steps, steps / 2));
    for (unsigned times = 0; times < SOUND_EXPORTS; times++)
        ask_numbered(asking, any_load(&asking->dice, times % 6 == 0 ? ALL_SIZES : SMALL_SIZES));
    ask_numbered(asking, load_with(&asking->dice, MOST_ROWS, MOST_STEPS, MOST_WINDOWS));
}

/* And some of them in a room of no bytes, of few, and of more than a small load would need. */
static void ask_faulty_export(struct asking *asking, const struct load *load)
{
    static const size_t rooms[] = {0, FEW, 256};
    unsigned every = check_load(load) == OUT_OF_RANGE ? 8 : 2;
    ask_export(asking, load);
    if (asking->asked['E'] % every == 0)
        ask_export_in_room(asking, rooms[asking->asked['e'] % 3], load);
}

static void ask_lent_export(struct asking *asking, const struct lent *lent,
                            const struct load *load)
{
    (void)lent;
    ask_faulty_export(asking, load);
}

static void ask_in_rooms(struct asking *asking, struct load load)
{
    size_t length = sheet_of(&load).length;
    ask_export_in_room(asking, 0, &load);
    if (length > 0)
        ask_export_in_room(asking, length - 1, &load);
    ask_export_in_room(asking, length, &load);
    ask_export_in_room(asking, length + 1, &load);
    ask_export_in_room(asking, length + MUCH_MORE, &load);
}

static void ask_sheet_rooms(struct asking *asking)
{
    struct load none = {0};
    struct load full = load_with(&asking->dice, MOST_ROWS, MOST_STEPS, MOST_WINDOWS);
    ask_in_rooms(asking, none);
    ask_in_rooms(asking, load_with(&asking->dice, 1, 1, 0));
    ask_in_rooms(asking, load_with(&asking->dice, 3, 2, 1));
    ask_in_rooms(asking, load_with(&asking->dice, 2, 7, 3));
    ask_in_rooms(asking, full);
    ask_export_in_room(asking, MOST_SHEET_ROOM, &none);
    ask_export_in_room(asking, MOST_SHEET_ROOM, &full);
}

void ask_exports(struct asking *asking)
{
    ask_sound_exports(asking);
    ask_each_fault(asking, ask_lent_export);
    ask_faults_in_order(asking, ask_faulty_export);
    ask_sheet_rooms(asking);
}
