#include "sheet.h"

#include <stdio.h>
#include <string.h>

#include "plain.h"
#include "sheet_line.h"

/* What stands before the first line and after the last: its identifier is that of no line, since
   ten digits say less. */
static const struct line NO_LINE = {.identifier = UINT64_MAX, .mark = NOTHING};

static bool begins_row(const struct line *before, const struct line *line)
{
    return before->identifier != line->identifier;
}

static bool is_row_other(const struct line *before, const struct line *line)
{
    return before->box != line->box || before->phase != line->phase
        || before->deadline != line->deadline;
}

/* The line before is of the same row and holds a limit or a dash. */
static bool is_window_before(const struct line *before, const struct line *line)
{
    return !begins_row(before, line) && before->mark != NOTHING;
}

/* The window that the line before opens has no second step. */
static bool ends_at_once(const struct line *before, const struct line *line)
{
    return before->mark == LIMIT && (begins_row(before, line) || line->mark != DASH);
}

/* 19, then 20; `line` may be what stands after the last. */
static enum refusal check_line(const struct line *before, const struct line *line)
{
    if (!begins_row(before, line) && is_row_other(before, line))
        return ROW_DIFFERS;
    if (line->mark == DASH && !is_window_before(before, line))
        return WINDOW_ALONE;
    if (ends_at_once(before, line))
        return WINDOW_ALONE;
    return ACCEPTED;
}

/* A number beyond its field is out of range (3, in its usual place): another number that is out of
   that range stands for it in the load. */
static uint32_t held(uint64_t number, uint32_t most, uint32_t out_of_range)
{
    return number <= most ? (uint32_t)number : out_of_range;
}

/* A sheet has no class and no head: a row is of class 0, and read by the one head. */
static void begin_row(struct row *row, const struct line *line)
{
    row->identifier.number = held(line->identifier, UINT32_MAX, 0);
    row->box.number = held(line->box, UINT32_MAX, 0);
    row->phase = held(line->phase, UINT32_MAX, UINT32_MAX);
    row->deadline = held(line->deadline, UINT32_MAX, 0);
    row->class = 0;
    row->head = ONLY_HEAD;
}

static void add_mark(struct row *row, const struct line *line)
{
    if (line->mark == LIMIT)
        row->windows[row->window_count++]
            = (struct window){row->step_count, row->step_count,
                              (uint16_t)held(line->limit, UINT16_MAX, 0)};
    if (line->mark == DASH)
        row->windows[row->window_count - 1].last = row->step_count;
}

/* The row's next step. A ninth has no place; the row's step count is then out of range, and that is
   asked before its steps. */
static void add_step(struct row *row, const struct line *line)
{
    if (row->step_count >= MOST_STEPS) {
        row->step_count = MOST_STEPS + 1;
        return;
    }
    row->steps[row->step_count++]
        = (struct step){(uint16_t)held(line->cost, UINT16_MAX, 0),
                        (uint16_t)held(line->wait, UINT16_MAX, UINT16_MAX)};
    add_mark(row, line);
}

/* The 25th row has no place either: rows are then counted alone. */
static void add_line(struct load *load, size_t *rows, const struct line *before,
                     const struct line *line)
{
    *rows += begins_row(before, line);
    if (*rows > MOST_ROWS)
        return;
    struct row *row = &load->rows[*rows - 1];
    if (begins_row(before, line))
        begin_row(row, line);
    add_step(row, line);
}

/* 18, 19 and 20, line by line and then at the end. */
static enum refusal read_lines(struct sheet_text *text, struct load *load, size_t *rows)
{
    struct line before = NO_LINE, line = NO_LINE;
    enum refusal refusal = ACCEPTED;
    for (*rows = 0; refusal == ACCEPTED && !is_sheet_over(text); before = line) {
        refusal = take_line(text, &line) ? check_line(&before, &line) : LINE_MALFORMED;
        if (refusal == ACCEPTED)
            add_line(load, rows, &before, &line);
    }
    return refusal == ACCEPTED ? check_line(&before, &NO_LINE) : refusal;
}

enum refusal read_sheet(const uint8_t *bytes, size_t length, struct load *load)
{
    struct sheet_text text = {bytes, length, 0};
    size_t rows;
    *load = (struct load){0};
    enum refusal refusal = read_lines(&text, load, &rows);
    if (refusal == ACCEPTED && rows > MOST_ROWS)
        refusal = OUT_OF_RANGE;
    if (refusal == ACCEPTED) {
        load->row_count = (uint8_t)rows;
        refusal = check_load(load);
    }
    if (refusal != ACCEPTED)
        *load = (struct load){0};
    return refusal;
}

/* The limit on a window's first step, a dash on its other steps, nothing elsewhere. */
static uint8_t *put_mark(uint8_t *at, const struct row *row, unsigned step)
{
    const struct window *window = window_from(row, step);
    if (window != NULL)
        return at + sprintf((char *)at, "%u", window->limit);
    return at + sprintf((char *)at, "%s", is_embedded(row, step) ? "-" : "");
}

static uint8_t *put_line(uint8_t *at, const struct row *row, unsigned step)
{
    at += sprintf((char *)at, "%lu,%lu,%lu,%lu,%u,%u,", (unsigned long)row->identifier.number,
                  (unsigned long)row->box.number, (unsigned long)row->phase,
                  (unsigned long)row->deadline, step_of(row, step)->cost,
                  step_of(row, step)->wait);
    at = put_mark(at, row, step);
    return at + sprintf((char *)at, "\r\n");
}

static uint8_t *put_lines(uint8_t *at, const struct row *row)
{
    for (unsigned step = 1; step <= row->step_count; step++)
        at = put_line(at, row, step);
    return at;
}

uint8_t *put_sheet(uint8_t *at, const struct load *load)
{
    *at = 0;
    for (unsigned row = 1; row <= load->row_count; row++)
        at = put_lines(at, row_of(load, row));
    return at;
}

/* A sheet's length is known when it is written, and then it may have no room: so it is written
   beside the room first. */
enum refusal write_sheet(const struct load *load, uint8_t *bytes, size_t room, size_t *written)
{
    uint8_t sheet[MOST_SHEET_BYTES + 1];
    *written = 0;
    enum refusal refusal = check_plain(load);
    if (refusal != ACCEPTED)
        return refusal;
    size_t length = (size_t)(put_sheet(sheet, load) - sheet);
    if (room < length)
        return OUTPUT_SHORT;
    memcpy(bytes, sheet, length);
    *written = length;
    return ACCEPTED;
}
