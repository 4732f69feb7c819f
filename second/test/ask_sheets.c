/* Route sheets worked by hand, and sheets of loads: of sound ones of every size, of faulty ones. */
#include <stdio.h>

#include "bound.h"
#include "questions.h"
#include "sheet_loads.h"
#include "sheet_parts.h"
#include "worked_sheets.h"

enum { ANY_SHEETS = 40, FULL_SHEETS = 2, FAULTY_SHEETS = 40, A_BYTE_MORE = 256 };

static void ask_sheet_of(struct asking *asking, const struct load *load)
{
    struct asked_sheet sheet = sheet_of(load);
    ask_sheet(asking, &sheet);
}

static void ask_worked_sheets(struct asking *asking)
{
    for (unsigned list = 0; WORKED_SHEETS[list] != NULL; list++)
        for (const struct worked_sheet *worked = WORKED_SHEETS[list]; worked->text != NULL;
             worked++) {
            struct asked_sheet sheet = sheet_of_text(worked->text);
            ask_sheet(asking, &sheet);
        }
}

/* A zero in front, inside a number, for a mark, behind a line's end, and alone. */
static void ask_zero_bytes(struct asking *asking)
{
    static const size_t places[] = {0, 2, 16, 18};
    struct asked_sheet sheet = sheet_of_text(LINE("101,201,0,9,1,0,")), made;
    for (unsigned place = 0; place < sizeof places / sizeof places[0]; place++) {
        made = with_bytes(&sheet, (struct part){places[place], 0}, (const uint8_t *)"", 1);
        ask_sheet(asking, &made);
    }
    made = (struct asked_sheet){.length = 1};
    ask_sheet(asking, &made);
}

/* So many more lines than a row has steps, or a load rows, that a count of one byte would be good
   again; `rows` says whether each line has a row of its own. */
static void ask_many_lines(struct asking *asking, unsigned lines, bool rows)
{
    struct asked_sheet sheet = {0};
    for (unsigned line = 1; line <= lines; line++)
        sheet.length += (size_t)sprintf((char *)sheet.bytes + sheet.length, "%u,%u,0,9,1,0,\r\n",
                                        rows ? line : 1, rows ? line : 1);
    ask_sheet(asking, &sheet);
}

static void ask_near_bounds(struct asking *asking, struct load load)
{
    uint32_t bounds[MOST_ROWS];
    row_bounds_of(&load, bounds);
    set_deadlines(&asking->dice, &load, bounds);
    number_rows(&asking->dice, &load);
    ask_sheet_of(asking, &load);
}

/* 1 to 8 steps with each count of windows that they can hold. */
static void ask_step_counts(struct asking *asking)
{
    for (unsigned steps = 1; steps <= MOST_STEPS; steps++)
        for (unsigned windows = 0; windows <= steps / 2; windows++)
            ask_near_bounds(asking, load_with(&asking->dice, 1 + steps % 3, steps, windows));
}

static void ask_sound_sheets(struct asking *asking)
{
    struct load longest = longest_load();
    ask_sheet_of(asking, &longest);
    for (unsigned times = 0; times < FULL_SHEETS; times++)
        ask_near_bounds(asking, load_with(&asking->dice, MOST_ROWS, MOST_STEPS, MOST_WINDOWS));
    ask_step_counts(asking);
    for (unsigned times = 0; times < ANY_SHEETS; times++)
        ask_near_bounds(asking, any_load(&asking->dice, times % 8 == 0 ? ALL_SIZES : SMALL_SIZES));
}

/* A load with faults has lines too, whatever they say of its windows. */
static void ask_faulty_sheets(struct asking *asking)
{
    struct dice *dice = &asking->dice;
    for (unsigned times = 0; times < FAULTY_SHEETS; times++) {
        struct load load = any_load(dice, SMALL_SIZES);
        for (unsigned faults = 1 + times % 2; faults > 0; faults--)
            spoil(dice, &load);
        ask_sheet_of(asking, &load);
    }
}

void ask_sheets(struct asking *asking)
{
    ask_worked_sheets(asking);
    ask_zero_bytes(asking);
    ask_many_lines(asking, A_BYTE_MORE + 1, false);
    ask_many_lines(asking, A_BYTE_MORE + MOST_STEPS, false);
    ask_many_lines(asking, A_BYTE_MORE, true);
    ask_many_lines(asking, A_BYTE_MORE + MOST_ROWS, true);
    ask_sound_sheets(asking);
    ask_faulty_sheets(asking);
}
