#include "notation.h"

#include <stdbool.h>
#include <string.h>

#include "plain.h"

enum { MOST_COUNTED = 255, LINE_ROOM = 8192 };

/* A row as the text has it: as many steps and windows as a count byte can say. `row` holds
   the row record's own fields alone. */
struct row_text {
    struct row row;
    struct step steps[MOST_COUNTED];
    struct window windows[MOST_COUNTED];
};

struct file_text {
    enum version version;
    uint8_t *at;
    size_t room;
    unsigned rows;
    unsigned steps;
};

static void skip_blanks(const char **at)
{
    while (**at == ' ' || **at == '\t' || **at == '\r' || **at == '\n')
        ++*at;
}

static bool is_line_over(const char **at)
{
    skip_blanks(at);
    return **at == '\0';
}

static bool take_sign(const char **at, const char *sign)
{
    skip_blanks(at);
    if (strncmp(*at, sign, strlen(sign)) != 0)
        return false;
    *at += strlen(sign);
    return true;
}

static bool is_digit(char sign)
{
    return '0' <= sign && sign <= '9';
}

static bool take_number(const char **at, uint32_t most, uint32_t *number)
{
    uint64_t value = 0;
    skip_blanks(at);
    if (!is_digit(**at))
        return false;
    for (; is_digit(**at); ++*at) {
        value = 10 * value + (uint64_t)(**at - '0');
        if (value > most)
            return false;
    }
    *number = (uint32_t)value;
    return true;
}

static bool take_row_fields(const char **at, struct row *row)
{
    return take_number(at, UINT32_MAX, &row->identifier.number)
        && take_number(at, UINT32_MAX, &row->box.number)
        && take_number(at, UINT32_MAX, &row->phase)
        && take_number(at, UINT32_MAX, &row->deadline)
        && take_sign(at, ":");
}

static bool take_step(const char **at, struct row_text *text)
{
    uint32_t cost, wait = 0;
    if (text->row.step_count == MOST_COUNTED || !take_number(at, UINT16_MAX, &cost))
        return false;
    if (take_sign(at, "w") && !take_number(at, UINT16_MAX, &wait))
        return false;
    text->steps[text->row.step_count++] = (struct step){(uint16_t)cost, (uint16_t)wait};
    return true;
}

static bool take_window(const char **at, struct row_text *text)
{
    uint32_t first, last, limit;
    if (text->row.window_count == MOST_COUNTED)
        return false;
    if (!take_number(at, UINT8_MAX, &first) || !take_sign(at, "-")
        || !take_number(at, UINT8_MAX, &last) || !take_sign(at, "<=")
        || !take_number(at, UINT16_MAX, &limit))
        return false;
    text->windows[text->row.window_count++]
        = (struct window){(uint8_t)first, (uint8_t)last, (uint16_t)limit};
    return true;
}

static bool take_class_and_head(const char **at, struct row *row)
{
    uint32_t class, head;
    if (!take_number(at, UINT8_MAX, &class) || !take_number(at, UINT8_MAX, &head))
        return false;
    row->class = (uint8_t)class;
    row->head = (uint8_t)head;
    return is_line_over(at);
}

/* Up to the second colon, and with it. */
static bool take_steps(const char **at, struct row_text *text)
{
    while (!is_line_over(at) && !take_sign(at, ":"))
        if (!take_step(at, text))
            return false;
    return true;
}

/* Up to the third colon, which is left for what it opens. */
static bool take_windows(const char **at, struct row_text *text)
{
    while (!is_line_over(at) && **at != ':')
        if (!take_window(at, text))
            return false;
    return true;
}

static bool take_row(const char *at, struct row_text *text)
{
    if (!take_row_fields(&at, &text->row) || !take_steps(&at, text) || !take_windows(&at, text))
        return false;
    return is_line_over(&at) || (take_sign(&at, ":") && take_class_and_head(&at, &text->row));
}

/* Keeps room for the end record, which comes when no row follows. */
static bool put_row_text(struct file_text *file, const struct row_text *text)
{
    size_t size = row_bytes(file->version) + (size_t)text->row.step_count * STEP_BYTES
        + (size_t)text->row.window_count * WINDOW_BYTES;
    if (file->rows == MOST_COUNTED || file->room < size + END_BYTES)
        return false;
    file->at = put_row(file->at, file->version, &text->row);
    for (unsigned place = 0; place < text->row.step_count; place++)
        file->at = put_step(file->at, &text->steps[place]);
    for (unsigned place = 0; place < text->row.window_count; place++)
        file->at = put_window(file->at, &text->windows[place]);
    file->room -= size;
    file->rows++;
    file->steps += text->row.step_count;
    return true;
}

static bool put_line(struct file_text *file, const char *line)
{
    struct row_text text = {.row = {.head = ONLY_HEAD}};
    skip_blanks(&line);
    if (*line == '#' || *line == '\0')
        return true;
    return take_row(line, &text) && (file->version == VERSION_2 || is_plain_row(&text.row))
        && put_row_text(file, &text);
}

static bool is_whole_line(FILE *text, const char *line)
{
    return strchr(line, '\n') != NULL || feof(text);
}

unsigned long write_notation(FILE *text, enum version version, uint8_t *bytes, size_t room,
                             size_t *written)
{
    char line[LINE_ROOM];
    unsigned long number = 1;
    *written = 0;
    if (room < HEADER_BYTES + END_BYTES)
        return number;
    struct file_text file = {version, bytes + HEADER_BYTES, room - HEADER_BYTES, 0, 0};
    for (; fgets(line, sizeof line, text) != NULL; number++)
        if (!is_whole_line(text, line) || !put_line(&file, line))
            return number;
    put_header(bytes, version, (uint8_t)file.rows);
    *written = (size_t)(put_end(file.at, (uint16_t)file.steps) - bytes);
    return 0;
}
