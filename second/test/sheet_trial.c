/* Random loads and damaged sheets: an exported sheet reads back as the same load, and an accepted
   sheet exports to the same bytes; with the factory identifier in any row a load is refused alike
   in memory, as a file and as a sheet; with a class in any row it has no sheet. */
#include <stdio.h>
#include <string.h>

#include "load_file.h"
#include "sheet.h"
#include "sheet_damage.h"
#include "sheet_loads.h"

enum { SEED = 20260207, LOADS = 1000, DAMAGED_EACH = 40, MOST_TIMES = 3 };

struct found {
    unsigned long sheets, accepted, faults;
};

static bool is_same_load(const struct load *one, const struct load *other)
{
    uint8_t files[2][MOST_LOAD_BYTES];
    size_t lengths[2];
    return write_version_1(one, files[0], sizeof files[0], &lengths[0]) == ACCEPTED
        && write_version_1(other, files[1], sizeof files[1], &lengths[1]) == ACCEPTED
        && lengths[0] == lengths[1] && memcmp(files[0], files[1], lengths[0]) == 0;
}

static bool reads_back(const struct load *load)
{
    uint8_t bytes[MOST_SHEET_BYTES];
    size_t length;
    struct load read;
    return write_sheet(load, bytes, sizeof bytes, &length) == ACCEPTED
        && read_sheet(bytes, length, &read) == ACCEPTED && is_same_load(load, &read);
}

static bool exports_alike(const struct asked_sheet *sheet, const struct load *read)
{
    uint8_t bytes[MOST_SHEET_BYTES];
    size_t length;
    return write_sheet(read, bytes, sizeof bytes, &length) == ACCEPTED
        && length == sheet->length && memcmp(bytes, sheet->bytes, length) == 0;
}

static bool is_factory_refused(struct load load, unsigned row)
{
    uint8_t bytes[MOST_LOAD_BYTES];
    struct load read;
    load.rows[row - 1].identifier.number = UINT32_MAX;
    size_t length = (size_t)(put_load(bytes, &load) - bytes);
    struct asked_sheet sheet = sheet_of(&load);
    return check_load(&load) == FACTORY_IDENTIFIER
        && read_load(bytes, length, &read) == FACTORY_IDENTIFIER
        && read_sheet(sheet.bytes, sheet.length, &read) == FACTORY_IDENTIFIER;
}

static bool is_class_refused(struct load load, unsigned row)
{
    uint8_t bytes[MOST_SHEET_BYTES];
    size_t length;
    load.rows[row - 1].class = (uint8_t)(1 + row % MOST_CLASS);
    return write_sheet(&load, bytes, sizeof bytes, &length) == NOT_CARRIED;
}

/* What is wrong is told with the sheet that shows it. */
static void tell(struct found *found, const char *what, const struct asked_sheet *sheet)
{
    found->faults++;
    printf("FAILED %s:\n", what);
    fwrite(sheet->bytes, 1, sheet->length, stdout);
}

static void try_damaged(struct found *found, struct dice *dice, const struct asked_sheet *sheet)
{
    struct load read;
    struct asked_sheet damaged = damaged_often(dice, sheet, between(dice, 1, MOST_TIMES));
    found->sheets++;
    if (read_sheet(damaged.bytes, damaged.length, &read) != ACCEPTED)
        return;
    found->accepted++;
    if (!exports_alike(&damaged, &read))
        tell(found, "an accepted sheet exports to other bytes", &damaged);
}

static void try_load(struct found *found, struct dice *dice, unsigned times)
{
    struct load load = any_load(dice, times % 10 == 0 ? ALL_SIZES : SMALL_SIZES);
    number_rows(dice, &load);
    struct asked_sheet sheet = sheet_of(&load);
    if (!reads_back(&load))
        tell(found, "an exported sheet is not read back", &sheet);
    for (unsigned row = 1; row <= load.row_count; row++) {
        if (!is_factory_refused(load, row))
            tell(found, "the factory identifier in some row of this is not refused alike", &sheet);
        if (!is_class_refused(load, row))
            tell(found, "a class in some row of this is lost", &sheet);
    }
    for (unsigned damaged = 0; damaged < DAMAGED_EACH; damaged++)
        try_damaged(found, dice, &sheet);
}

int main(void)
{
    struct dice dice = {UINT64_C(0x9E3779B97F4A7C15) ^ SEED};
    struct found found = {0, 0, 0};
    for (unsigned times = 0; times < LOADS; times++)
        try_load(&found, &dice, times);
    printf("sheet trial: %d random loads, %lu damaged sheets, %lu of them accepted, "
           "%lu counterexamples\n", LOADS, found.sheets, found.accepted, found.faults);
    return found.faults == 0 ? 0 : 1;
}
