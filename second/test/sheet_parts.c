#include "sheet_parts.h"

#include <string.h>

#include "sheet.h"

struct asked_sheet sheet_of(const struct load *load)
{
    struct asked_sheet sheet = {0};
    sheet.length = (size_t)(put_sheet(sheet.bytes, load) - sheet.bytes);
    return sheet;
}

struct asked_sheet sheet_of_text(const char *text)
{
    struct asked_sheet sheet = {.length = strlen(text)};
    memcpy(sheet.bytes, text, sheet.length);
    return sheet;
}

unsigned lines_of(const struct asked_sheet *sheet)
{
    unsigned lines = 0;
    for (size_t at = 0; at < sheet->length; at++)
        lines += sheet->bytes[at] == '\n';
    return lines;
}

/* The place behind so many of these signs, from a place on. */
static size_t behind(const struct asked_sheet *sheet, size_t at, uint8_t sign, unsigned times)
{
    for (; times > 0; at++)
        times -= sheet->bytes[at] == sign;
    return at;
}

struct part line_of(const struct asked_sheet *sheet, unsigned line)
{
    size_t at = behind(sheet, 0, '\n', line);
    return (struct part){at, behind(sheet, at, '\n', 1) - at};
}

struct part field_of(const struct asked_sheet *sheet, unsigned line, unsigned field)
{
    size_t at = behind(sheet, line_of(sheet, line).at, ',', field);
    size_t end = behind(sheet, at, field == LIMIT_FIELD ? '\r' : ',', 1) - 1;
    return (struct part){at, end - at};
}

struct asked_sheet with_bytes(const struct asked_sheet *sheet, struct part part,
                              const uint8_t *bytes, size_t length)
{
    struct asked_sheet made = {.length = sheet->length - part.length + length};
    size_t rest = part.at + part.length;
    memcpy(made.bytes, sheet->bytes, part.at);
    memcpy(made.bytes + part.at, bytes, length);
    memcpy(made.bytes + part.at + length, sheet->bytes + rest, sheet->length - rest);
    return made;
}

struct asked_sheet with_field(const struct asked_sheet *sheet, unsigned line, unsigned field,
                              const char *text)
{
    return with_bytes(sheet, field_of(sheet, line, field), (const uint8_t *)text, strlen(text));
}

static bool is_part_same(const struct asked_sheet *sheet, struct part one, struct part other)
{
    return one.length == other.length
        && memcmp(sheet->bytes + one.at, sheet->bytes + other.at, one.length) == 0;
}

struct asked_sheet with_row_field(const struct asked_sheet *sheet, unsigned line, unsigned field,
                                  const char *text)
{
    struct asked_sheet made = *sheet;
    struct part asked = field_of(sheet, line, IDENTIFIER_FIELD);
    for (unsigned at = 0; at < lines_of(sheet); at++)
        if (is_part_same(sheet, asked, field_of(sheet, at, IDENTIFIER_FIELD)))
            made = with_field(&made, at, field, text);
    return made;
}

struct asked_sheet with_exchanged(const struct asked_sheet *sheet, struct part one,
                                  struct part other)
{
    struct asked_sheet made = with_bytes(sheet, other, sheet->bytes + one.at, one.length);
    return with_bytes(&made, one, sheet->bytes + other.at, other.length);
}
