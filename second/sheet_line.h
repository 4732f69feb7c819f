/* One line of a route sheet: its seven fields, or that it is malformed (18). */
#ifndef SHEET_LINE_H
#define SHEET_LINE_H

#include <stdbool.h>
#include <stddef.h>
#include <stdint.h>

/* What stands in a line's last field. */
enum mark { NOTHING, DASH, LIMIT };

/* The numbers as their digits say them, whether or not a load's field can hold them. Without a
   limit that one is 0. */
struct line {
    uint64_t identifier, box, phase, deadline, cost, wait, limit;
    enum mark mark;
};

struct sheet_text {
    const uint8_t *bytes;
    size_t length;
    size_t at;
};

bool is_sheet_over(const struct sheet_text *text);

/* Takes the next line with its CR LF; false when what stands there is malformed. */
bool take_line(struct sheet_text *text, struct line *line);

#endif
