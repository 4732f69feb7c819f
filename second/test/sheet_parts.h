/* A route sheet's lines and fields, and sheets made of others by exchanging bytes. A line is told
   by its number from 0 and includes its CR LF; a field by its number from 0, and ends before its
   comma or CR. They are looked for where every line has CR LF and six commas. */
#ifndef SHEET_PARTS_H
#define SHEET_PARTS_H

#include "asked.h"

enum { IDENTIFIER_FIELD, BOX_FIELD, PHASE_FIELD, DEADLINE_FIELD, COST_FIELD, WAIT_FIELD,
       LIMIT_FIELD, FIELDS };

struct part {
    size_t at;
    size_t length;
};

/* A load's lines, unchecked; its counts fit its places. */
struct asked_sheet sheet_of(const struct load *load);

struct asked_sheet sheet_of_text(const char *text);

unsigned lines_of(const struct asked_sheet *sheet);
struct part line_of(const struct asked_sheet *sheet, unsigned line);
struct part field_of(const struct asked_sheet *sheet, unsigned line, unsigned field);

/* The sheet with other bytes in place of a part's. */
struct asked_sheet with_bytes(const struct asked_sheet *sheet, struct part part,
                              const uint8_t *bytes, size_t length);

/* The sheet with a text in a field of a line, or of all lines that have the line's identifier. */
struct asked_sheet with_field(const struct asked_sheet *sheet, unsigned line, unsigned field,
                              const char *text);
struct asked_sheet with_row_field(const struct asked_sheet *sheet, unsigned line, unsigned field,
                                  const char *text);

/* The sheet with two parts exchanged, the first of which stands before the other. */
struct asked_sheet with_exchanged(const struct asked_sheet *sheet, struct part one,
                                  struct part other);

#endif
