/* Load files of version 2, and of versions that there are not: worked by hand, and one version's
   bytes under the other's number. */
#include "questions.h"

enum { MISTAKEN = 12 };

/* 2 w10 3 / 1 w4 2 / 2 w3 1, which is load A. */
static const struct load LOAD_A = {3, {
    {{101}, {201}, 0, 20, 2, 0, 0, 1, {{2, 10}, {3, 0}}, {{0, 0, 0}}},
    {{102}, {202}, 0, 19, 2, 0, 0, 1, {{1, 4}, {2, 0}}, {{0, 0, 0}}},
    {{103}, {203}, 0, 18, 2, 0, 0, 1, {{2, 3}, {1, 0}}, {{0, 0, 0}}},
}};

static void ask_report_in(struct asking *asking, enum version version, const struct load *load)
{
    struct asked_file file = file_in(version, load);
    ask_report(asking, &file);
}

/* A, plain and with classes 0, 0 and 3; no rows; and all that a file can hold, and a byte more. */
static void ask_worked(struct asking *asking)
{
    struct load urgent = LOAD_A, none = {0};
    urgent.rows[2].class = MOST_CLASS;
    struct asked_file files[] = {file_in(VERSION_2, &LOAD_A), file_in(VERSION_2, &urgent)};
    ask_all_of_file(asking, &files[0]);
    ask_all_of_file(asking, &files[1]);
    ask_blame(asking, &files[1]);
    ask_report_in(asking, VERSION_2, &none);
    struct load full = load_with(&asking->dice, MOST_ROWS, MOST_STEPS, MOST_WINDOWS);
    set_classes(&asking->dice, &full);
    struct asked_file file = file_in(VERSION_2, &full);
    ask_report(asking, &file);
    file.length++;
    ask_report(asking, &file);
}

/* Row 2 of A, out of range; beside it 21 and twins of it, which come later. */
static void ask_ranges(struct asking *asking)
{
    static const uint8_t numbers[][2] = {{4, 1}, {255, 1}, {0, 0}, {3, 2}, {0, 255}, {1, 3}};
    for (unsigned place = 0; place < sizeof numbers / sizeof numbers[0]; place++) {
        struct load load = LOAD_A;
        load.rows[1].class = numbers[place][0];
        load.rows[1].head = numbers[place][1];
        ask_report_in(asking, VERSION_2, &load);
        load.rows[1].identifier.number = place % 2 == 0 ? UINT32_MAX : 101;
        ask_report_in(asking, VERSION_2, &load);
    }
}

/* Each version byte of some, with A's rows in either version, and with 25 of them. */
static void ask_version_bytes(struct asking *asking)
{
    static const uint8_t versions[] = {0, 1, 2, 3, 4, 128, 255};
    for (unsigned place = 0; place < 2 * sizeof versions; place++) {
        struct asked_file file = file_in(place % 2 == 0 ? VERSION_1 : VERSION_2, &LOAD_A);
        file.bytes[2] = versions[place / 2];
        ask_report(asking, &file);
        file.bytes[3] = MOST_ROWS + 1;
        ask_report(asking, &file);
    }
}

/* A file is cut inside and behind its first row record, by the one version and by the other. */
static void ask_short_rows(struct asking *asking)
{
    for (size_t length = ROW_BYTES - 1; length <= ROW_BYTES + CLASS_AND_HEAD_BYTES + 1; length++) {
        struct asked_file files[] = {file_in(VERSION_1, &LOAD_A), file_in(VERSION_2, &LOAD_A)};
        files[0].length = files[1].length = HEADER_BYTES + length;
        ask_report(asking, &files[0]);
        ask_report(asking, &files[1]);
    }
}

/* Any load's bytes with the other version's number. */
static void ask_mistaken(struct asking *asking)
{
    for (unsigned times = 0; times < MISTAKEN; times++) {
        struct load load = any_load(&asking->dice, SMALL_SIZES);
        struct asked_file file = file_in(times % 2 == 0 ? VERSION_1 : VERSION_2, &load);
        file.bytes[2] = times % 2 == 0 ? VERSION_2 : VERSION_1;
        ask_report(asking, &file);
    }
}

/* The file's number comes first, whatever the state (10) or the list (12). */
static void ask_with_what_is_lent(struct asking *asking)
{
    struct bench state = {.clock = LAST_MOMENT + 1};
    struct asked_slots list = {0};
    struct load load = LOAD_A;
    load.rows[2].class = MOST_CLASS + 1;
    struct asked_file file = file_in(VERSION_2, &load);
    ask_blame(asking, &file);
    ask_move(asking, &file, &state);
    ask_check(asking, &file, &list);
}

void ask_versions(struct asking *asking)
{
    ask_worked(asking);
    ask_ranges(asking);
    ask_version_bytes(asking);
    ask_short_rows(asking);
    ask_mistaken(asking);
    ask_with_what_is_lent(asking);
}
