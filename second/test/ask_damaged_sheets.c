/* Route sheets with one thing wrong, or several: every kind of damage, every field with numbers at
   the ends of its range and beyond it, and every number that a sheet is refused with. */
#include <stdio.h>
#include <stdlib.h>

#include "questions.h"
#include "sheet.h"
#include "sheet_damage.h"

enum { OF_A_DAMAGE = 9, OF_A_NUMBER = 10, MOST_TIMES = 3, MOST_NUMBERS = 11, WIDTHS = 2,
       NUMBER_ROOM = 24 };

/* What is put into a field, up to the first that is not there. */
static const char *const NUMBERS[FIELDS][MOST_NUMBERS] = {
    {"0", "1", "102", "4294967295", "4294967296", "9999999999", "10000000000", "-", "",
     "4294967294"},
    {"0", "1", "202", "4294967295", "4294967296", "9999999999", "10000000000", "-", ""},
    {"0", "86399", "86400", "86401", "4294967295", "4294967296", "9999999999", "10000000000"},
    {"0", "1", "999999", "1000000", "1000001", "4294967296", "9999999999", "10000000000"},
    {"0", "1", "600", "601", "65535", "65536", "4294967295", "4294967296", "9999999999",
     "10000000000"},
    {"0", "3600", "3601", "65535", "65536", "4294967295", "4294967296", "9999999999",
     "10000000000"},
    {"0", "1", "65535", "65536", "65537", "4294967295", "4294967296", "9999999999", "10000000000",
     "-", ""},
};

/* 3 w1 2 w2 1 (window 1 to 2) and 1 w4 2 w0 1 (window 2 to 3). */
static const struct load TWO_ROWS = {2, {
    {{101}, {201}, 7, 90, 3, 1, 0, 1, {{3, 1}, {2, 2}, {1, 0}}, {{1, 2, 8}}},
    {{102}, {202}, 0, 90, 3, 1, 0, 1, {{1, 4}, {2, 0}, {1, 0}}, {{2, 3, 5}}},
}};

/* On one line of a row, and on all of them. */
static void ask_with_field(struct asking *asking, const struct asked_sheet *sheet, unsigned line,
                           unsigned field, const char *text)
{
    struct asked_sheet made = with_field(sheet, line, field, text);
    ask_sheet(asking, &made);
    if (field > DEADLINE_FIELD)
        return;
    made = with_row_field(sheet, line, field, text);
    ask_sheet(asking, &made);
}

static void ask_numbers(struct asking *asking, const struct asked_sheet *sheet, unsigned field)
{
    for (unsigned place = 0; place < MOST_NUMBERS && NUMBERS[field][place] != NULL; place++)
        ask_with_field(asking, sheet, place % lines_of(sheet), field, NUMBERS[field][place]);
}

/* The number that stands there, with a bit set that its field has no room for. */
static void ask_widened(struct asking *asking, const struct asked_sheet *sheet, unsigned line,
                        unsigned field)
{
    static const unsigned long long widths[WIDTHS] = {1ull << 16, 1ull << 32};
    char text[NUMBER_ROOM];
    for (unsigned place = 0; place < WIDTHS; place++) {
        const uint8_t *digits = sheet->bytes + field_of(sheet, line, field).at;
        snprintf(text, sizeof text, "%llu",
                 strtoull((const char *)digits, NULL, 10) + widths[place]);
        ask_with_field(asking, sheet, line, field, text);
    }
}

static void ask_fields(struct asking *asking)
{
    struct asked_sheet sheet = sheet_of(&TWO_ROWS);
    for (unsigned field = 0; field < FIELDS; field++) {
        ask_numbers(asking, &sheet, field);
        ask_widened(asking, &sheet, 0, field);
        ask_widened(asking, &sheet, 4, field);
    }
}

static void ask_each_damage(struct asking *asking)
{
    struct dice *dice = &asking->dice;
    for (enum damage damage = 0; damage < DAMAGES; damage++)
        for (unsigned times = 0; times < OF_A_DAMAGE; times++) {
            struct load load = any_load(dice, SMALL_SIZES);
            struct asked_sheet sheet = sheet_of(&load);
            sheet = damaged_sheet(dice, &sheet, damage);
            ask_sheet(asking, &sheet);
        }
}

/* Several damages by chance, until the number has been met so often. */
static void ask_number(struct asking *asking, enum refusal number)
{
    struct dice *dice = &asking->dice;
    for (unsigned found = 0; found < OF_A_NUMBER;) {
        struct load load = any_load(dice, SMALL_SIZES), read;
        struct asked_sheet sheet = sheet_of(&load);
        sheet = damaged_often(dice, &sheet, between(dice, 1, MOST_TIMES));
        if (read_sheet(sheet.bytes, sheet.length, &read) != number)
            continue;
        ask_sheet(asking, &sheet);
        found++;
    }
}

void ask_damaged_sheets(struct asking *asking)
{
    static const enum refusal numbers[] = {ACCEPTED, OUT_OF_RANGE, IDENTIFIER_TAKEN, BOX_TAKEN,
        LIMIT_BELOW_CHAIN, LINE_MALFORMED, ROW_DIFFERS, WINDOW_ALONE};
    ask_fields(asking);
    ask_each_damage(asking);
    for (unsigned place = 0; place < sizeof numbers / sizeof numbers[0]; place++)
        ask_number(asking, numbers[place]);
}
