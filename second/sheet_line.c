#include "sheet_line.h"

enum { MOST_DIGITS = 10 };

bool is_sheet_over(const struct sheet_text *text)
{
    return text->at == text->length;
}

static bool is_next(const struct sheet_text *text, uint8_t sign)
{
    return !is_sheet_over(text) && text->bytes[text->at] == sign;
}

static bool take_sign(struct sheet_text *text, uint8_t sign)
{
    bool there = is_next(text, sign);
    text->at += there;
    return there;
}

static bool is_digit_next(const struct sheet_text *text)
{
    return !is_sheet_over(text) && '0' <= text->bytes[text->at] && text->bytes[text->at] <= '9';
}

/* Plain decimal without leading zeros, of at most ten digits. */
static bool take_number(struct sheet_text *text, uint64_t *number)
{
    bool zero_leads = is_next(text, '0');
    size_t first = text->at;
    for (*number = 0; is_digit_next(text); text->at++)
        *number = 10 * *number + (uint64_t)(text->bytes[text->at] - '0');
    size_t digits = text->at - first;
    if (zero_leads && digits > 1)
        return false;
    return 1 <= digits && digits <= MOST_DIGITS;
}

static bool take_field(struct sheet_text *text, uint64_t *number)
{
    return take_number(text, number) && take_sign(text, ',');
}

/* The last field: nothing before the line's end, a dash, or a limit. */
static bool take_mark(struct sheet_text *text, struct line *line)
{
    line->limit = 0;
    line->mark = is_next(text, '\r') ? NOTHING : is_next(text, '-') ? DASH : LIMIT;
    if (line->mark == LIMIT)
        return take_number(text, &line->limit);
    return line->mark == NOTHING || take_sign(text, '-');
}

/* CR LF at each end, the last line's too. */
static bool take_end(struct sheet_text *text)
{
    return take_sign(text, '\r') && take_sign(text, '\n');
}

bool take_line(struct sheet_text *text, struct line *line)
{
    return take_field(text, &line->identifier) && take_field(text, &line->box)
        && take_field(text, &line->phase) && take_field(text, &line->deadline)
        && take_field(text, &line->cost) && take_field(text, &line->wait)
        && take_mark(text, line) && take_end(text);
}
