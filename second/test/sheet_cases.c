/* Route sheets, read and written: 18, 19, 20, and 3 to 7, 9 and 21 as they meet them. */
#include <string.h>

#include "cases.h"
#include "load_file.h"
#include "sheet.h"
#include "worked_sheets.h"

enum { ROOM_BYTE = 0xAA, FREE = 8 };

/* A sheet that is written into a room with some bytes to spare. */
struct written {
    enum refusal refusal;
    size_t length;
    uint8_t bytes[MOST_SHEET_BYTES + FREE];
};

static struct written written_into(const struct load *load, size_t room)
{
    struct written written;
    memset(written.bytes, ROOM_BYTE, sizeof written.bytes);
    written.length = 1;
    written.refusal = write_sheet(load, written.bytes, room, &written.length);
    return written;
}

static bool is_untouched_from(const struct written *written, size_t first)
{
    for (size_t place = first; place < sizeof written->bytes; place++)
        if (written->bytes[place] != ROOM_BYTE)
            return false;
    return true;
}

static bool is_load(const struct load *one, const struct load *other)
{
    uint8_t files[2][MOST_LOAD_BYTES];
    size_t length = (size_t)(put_load(files[0], one) - files[0]);
    return (size_t)(put_load(files[1], other) - files[1]) == length
        && memcmp(files[0], files[1], length) == 0;
}

static long reading(const char *text, struct load *load)
{
    return read_sheet((const uint8_t *)text, strlen(text), load);
}

/* The sheet's number; a good one is written back to the same bytes, a refused one gives no load. */
static void sheet_case(struct tally *tally, const struct worked_sheet *sheet)
{
    struct load load, none = {0};
    long number = reading(sheet->text, &load);
    same(tally, sheet->what, sheet->number, number);
    if (number != ACCEPTED) {
        same(tally, sheet->what, 1, is_load(&load, &none));
        return;
    }
    struct written written = written_into(&load, MOST_SHEET_BYTES);
    same(tally, sheet->what, (long)strlen(sheet->text), (long)written.length);
    same(tally, sheet->what, 0, memcmp(sheet->text, written.bytes, written.length));
}

static void worked_cases(struct tally *tally)
{
    for (unsigned list = 0; WORKED_SHEETS[list] != NULL; list++)
        for (const struct worked_sheet *sheet = WORKED_SHEETS[list]; sheet->text != NULL; sheet++)
            sheet_case(tally, sheet);
}

static void read_case(struct tally *tally, const char *text, struct load wanted)
{
    struct load load;
    same(tally, "read", 0, reading(text, &load));
    same(tally, "the load read", 1, is_load(&load, &wanted));
}

/* What stands in which field, and from where to where a window runs. */
static void reading_cases(struct tally *tally)
{
    read_case(tally, "", (struct load){0});
    read_case(tally, SHEET_OF_B, load_b());
    read_case(tally, LINE("101,201,5,100,1,2,4") LINE("101,201,5,100,1,0,-")
              LINE("101,201,5,100,1,3,9") LINE("101,201,5,100,1,0,-"), load_two_windows());
    read_case(tally, LINE("6,5,4,3,2,0,"), (struct load){1, {
        {{6}, {5}, 4, 3, 1, 0, 0, 1, {{2, 0}}, {{0, 0, 0}}}}});
    read_case(tally, LINE("9,8,7,6,5,4,") LINE("9,8,7,6,3,2,77") LINE("9,8,7,6,1,1,-")
              LINE("9,8,7,6,10,11,-") LINE("9,8,7,6,12,0,"), (struct load){1, {
        {{9}, {8}, 7, 6, 5, 1, 0, 1, {{5, 4}, {3, 2}, {1, 1}, {10, 11}, {12, 0}}, {{2, 4, 77}}}}});
    read_case(tally, SHEET_OF_A, load_a());
}

/* A zero byte is no sign of a sheet, wherever it stands, and neither ends one. */
static void zero_byte_cases(struct tally *tally)
{
    struct load load;
    uint8_t bytes[] = LINE("102,202,0,9,3,0,") LINE("103,203,0,9,3,0,");
    size_t length = sizeof bytes - 1;
    same(tally, "without a zero", 0, read_sheet(bytes, length, &load));
    same(tally, "a zero behind the sheet", 18, read_sheet(bytes, length + 1, &load));
    for (size_t place = 0; place < length; place++) {
        uint8_t byte = bytes[place];
        bytes[place] = 0;
        same(tally, "a zero in the sheet", 18, read_sheet(bytes, length, &load));
        bytes[place] = byte;
    }
    same(tally, "a zero alone", 18, read_sheet((const uint8_t *)"", 1, &load));
}

/* A sheet cut anywhere but behind a line is malformed; behind a line with a limit it is 20. */
static void cut_cases(struct tally *tally)
{
    static const char text[] = SHEET_OF_B;
    struct load load;
    for (size_t length = 0; length <= 124; length++) {
        bool after_limit = length == 25 || length == 25 + 25 + 24 + 25;
        bool whole = length == 0 || length == 50 || length == 74 || length == 124;
        same(tally, "cut short", whole ? 0 : after_limit ? 20 : 18,
             read_sheet((const uint8_t *)text, length, &load));
    }
}

static void room_case(struct tally *tally, struct load load, size_t room, enum refusal number,
                      const char *text)
{
    struct written written = written_into(&load, room);
    same(tally, "written", number, written.refusal);
    same(tally, "its length", (long)strlen(text), (long)written.length);
    same(tally, "its bytes", 0, memcmp(text, written.bytes, strlen(text)));
    same(tally, "bytes past it stay", 1, is_untouched_from(&written, strlen(text)));
}

static void room_cases(struct tally *tally)
{
    struct load none = {0};
    same(tally, "B's sheet", 124, (long)strlen(SHEET_OF_B));
    same(tally, "A's sheet", 115, (long)strlen(SHEET_OF_A));
    room_case(tally, load_b(), 124, ACCEPTED, SHEET_OF_B);
    room_case(tally, load_b(), 125, ACCEPTED, SHEET_OF_B);
    room_case(tally, load_b(), MOST_SHEET_BYTES, ACCEPTED, SHEET_OF_B);
    room_case(tally, load_b(), 123, OUTPUT_SHORT, "");
    room_case(tally, load_b(), 0, OUTPUT_SHORT, "");
    room_case(tally, none, 0, ACCEPTED, "");
    room_case(tally, none, 9, ACCEPTED, "");
}

/* Every number as long as it can be: 9,528 bytes. */
static void longest_case(struct tally *tally)
{
    struct load load = {.row_count = MOST_ROWS}, read;
    for (unsigned row = 0; row < MOST_ROWS; row++)
        load.rows[row] = (struct row){
            {4000000000u + row}, {4100000000u + row}, 86400, 1000000, 8, 4, 0, 1,
            {{600, 3600}, {600, 3600}, {600, 3600}, {600, 3600}, {600, 3600}, {600, 3600},
             {600, 3600}, {600, 0}},
            {{1, 2, 65535}, {3, 4, 65535}, {5, 6, 65535}, {7, 8, 65535}}};
    struct written written = written_into(&load, 9528);
    same(tally, "the longest sheet", 0, written.refusal);
    same(tally, "its length", 9528, (long)written.length);
    same(tally, "read back", 0, read_sheet(written.bytes, written.length, &read));
    same(tally, "as the same load", 1, is_load(&load, &read));
    written = written_into(&load, 9527);
    same(tally, "the longest sheet without its last byte", 9, written.refusal);
    same(tally, "and nothing written", 1, is_untouched_from(&written, 0));
}

/* Each line spoils one place of B; the load's number comes before 9. */
#define SPOILED(number, place) \
    do { \
        struct load l = load_b(); \
        place; \
        room_case(tally, l, 0, number, ""); \
        room_case(tally, l, MOST_SHEET_BYTES, number, ""); \
    } while (0)

static void faulty_load_cases(struct tally *tally)
{
    SPOILED(OUT_OF_RANGE, l.row_count = 25);
    SPOILED(OUT_OF_RANGE, l.rows[1].steps[0].cost = 0);
    SPOILED(OUT_OF_RANGE, l.rows[1].step_count = 9);
    SPOILED(OUT_OF_RANGE, l.rows[3].phase = 1);
    SPOILED(FACTORY_IDENTIFIER, l.rows[1].identifier.number = UINT32_MAX);
    SPOILED(IDENTIFIER_TAKEN, l.rows[1].identifier.number = 101);
    SPOILED(BOX_TAKEN, l.rows[2].box.number = 202);
    SPOILED(WINDOW_STEPS, l.rows[2].windows[0].last = 3);
    SPOILED(LIMIT_BELOW_CHAIN, l.rows[0].windows[0].limit = 7);
}

void sheet_cases(struct tally *tally)
{
    worked_cases(tally);
    reading_cases(tally);
    zero_byte_cases(tally);
    cut_cases(tally);
    room_cases(tally);
    longest_case(tally);
    faulty_load_cases(tally);
}
