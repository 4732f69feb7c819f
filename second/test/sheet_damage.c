#include "sheet_damage.h"

/* The signs of a sheet, and those that a spreadsheet would put there. */
static const char SIGNS[] = "0123456789,,-\r\n \";";

static size_t any_place(struct dice *dice, const struct asked_sheet *sheet)
{
    return throw_dice(dice) % sheet->length;
}

static unsigned any_line(struct dice *dice, const struct asked_sheet *sheet)
{
    return throw_dice(dice) % lines_of(sheet);
}

static uint8_t any_sign(struct dice *dice)
{
    return (uint8_t)SIGNS[throw_dice(dice) % (sizeof SIGNS - 1)];
}

static struct asked_sheet without(const struct asked_sheet *sheet, struct part part)
{
    return with_bytes(sheet, part, sheet->bytes, 0);
}

static struct asked_sheet with_byte(const struct asked_sheet *sheet, size_t at, size_t lost,
                                    uint32_t byte)
{
    uint8_t bytes[] = {(uint8_t)byte};
    return with_bytes(sheet, (struct part){at, lost}, bytes, 1);
}

static struct asked_sheet with_fields_exchanged(struct dice *dice, const struct asked_sheet *sheet)
{
    unsigned line = any_line(dice, sheet);
    unsigned field = throw_dice(dice) % (FIELDS - 1);
    unsigned other = between(dice, field + 1, FIELDS - 1);
    return with_exchanged(sheet, field_of(sheet, line, field), field_of(sheet, line, other));
}

/* One line's field in another line. */
static struct asked_sheet with_field_copied(struct dice *dice, const struct asked_sheet *sheet)
{
    unsigned field = throw_dice(dice) % FIELDS;
    struct part from = field_of(sheet, any_line(dice, sheet), field);
    struct part to = field_of(sheet, any_line(dice, sheet), field);
    return with_bytes(sheet, to, sheet->bytes + from.at, from.length);
}

static struct asked_sheet with_mark(struct dice *dice, const struct asked_sheet *sheet)
{
    static const char *const marks[] = {"", "-", "0", "1", "20", "65535"};
    unsigned line = any_line(dice, sheet);
    return with_field(sheet, line, LIMIT_FIELD, marks[throw_dice(dice) % 6]);
}

static struct asked_sheet with_lines_exchanged(struct dice *dice, const struct asked_sheet *sheet)
{
    unsigned one = any_line(dice, sheet);
    unsigned other = any_line(dice, sheet);
    if (one == other)
        return *sheet;
    return with_exchanged(sheet, line_of(sheet, one < other ? one : other),
                          line_of(sheet, one < other ? other : one));
}

/* A line again, before some line. */
static struct asked_sheet with_line_again(struct dice *dice, const struct asked_sheet *sheet,
                                          unsigned line)
{
    struct part again = line_of(sheet, line);
    struct part place = {line_of(sheet, any_line(dice, sheet)).at, 0};
    return with_bytes(sheet, place, sheet->bytes + again.at, again.length);
}

struct asked_sheet damaged_sheet(struct dice *dice, const struct asked_sheet *sheet,
                                 enum damage damage)
{
    size_t at = any_place(dice, sheet);
    unsigned line = any_line(dice, sheet);
    uint8_t sign = any_sign(dice);
    switch (damage) {
    case BYTE_LOST: return without(sheet, (struct part){at, 1});
    case BYTE_ADDED: return with_byte(sheet, at, 0, sign);
    case BYTE_CHANGED: return with_byte(sheet, at, 1, throw_dice(dice));
    case BIT_FLIPPED: return with_byte(sheet, at, 1, sheet->bytes[at] ^ 1u << sign % 8);
    case SIGN_CHANGED: return with_byte(sheet, at, 1, sign);
    case ZERO_ADDED: return with_byte(sheet, field_of(sheet, line, at % FIELDS).at, 0, '0');
    case FIELDS_EXCHANGED: return with_fields_exchanged(dice, sheet);
    case FIELD_COPIED: return with_field_copied(dice, sheet);
    case MARK_CHANGED: return with_mark(dice, sheet);
    case LINE_LOST: return without(sheet, line_of(sheet, line));
    case LINE_DOUBLED: return with_line_again(dice, sheet, line);
    default: return with_lines_exchanged(dice, sheet);
    }
}

struct asked_sheet damaged_often(struct dice *dice, const struct asked_sheet *sheet,
                                 unsigned times)
{
    struct asked_sheet damaged = *sheet;
    for (; times > 1 && damaged.length > 0; times--)
        damaged = damaged_sheet(dice, &damaged, between(dice, ZERO_ADDED, DAMAGES - 1));
    if (damaged.length > 0)
        damaged = damaged_sheet(dice, &damaged, throw_dice(dice) % DAMAGES);
    return damaged;
}
