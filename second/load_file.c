#include "load_file.h"

#include <string.h>

#include "little_endian.h"
#include "load_marks.h"

/* The version is known once the header is read. */
struct reader {
    const uint8_t *bytes;
    size_t length;
    size_t at;
    enum version version;
};

size_t row_bytes(enum version version)
{
    return version == VERSION_1 ? ROW_BYTES : ROW_BYTES + CLASS_AND_HEAD_BYTES;
}

/* The next record's fields, once it is whole (1) and bears its mark (2). A record's length
   is asked before anything in it, so a short one is 1 whatever its bytes say. */
static enum refusal take_record(struct reader *reader, size_t size, const uint8_t *mark,
                                const uint8_t **fields)
{
    if (reader->length - reader->at < size)
        return FILE_SHORT;
    const uint8_t *record = reader->bytes + reader->at;
    if (memcmp(record, mark, MARK_BYTES) != 0)
        return MARK_DIFFERS;
    *fields = record + MARK_BYTES;
    reader->at += size;
    return ACCEPTED;
}

static enum refusal read_header(struct reader *reader, struct load *load)
{
    const uint8_t *fields;
    enum refusal refusal = take_record(reader, HEADER_BYTES, HEADER_MARK, &fields);
    if (refusal != ACCEPTED)
        return refusal;
    if (fields[0] != VERSION_1 && fields[0] != VERSION_2)
        return MARK_DIFFERS;
    if (fields[1] > MOST_ROWS)
        return OUT_OF_RANGE;
    reader->version = (enum version)fields[0];
    load->row_count = fields[1];
    return ACCEPTED;
}

static enum refusal read_row_record(struct reader *reader, struct load *load, unsigned row)
{
    const uint8_t *fields;
    enum refusal refusal = take_record(reader, row_bytes(reader->version), ROW_MARK,
                                       &fields);
    if (refusal != ACCEPTED)
        return refusal;
    struct row *place = &load->rows[row - 1];
    place->identifier.number = get_4(fields);
    place->box.number = get_4(fields + 4);
    place->phase = get_4(fields + 8);
    place->deadline = get_4(fields + 12);
    place->step_count = fields[16];
    place->window_count = fields[17];
    place->class = reader->version == VERSION_1 ? 0 : fields[18];
    place->head = reader->version == VERSION_1 ? ONLY_HEAD : fields[19];
    return check_row_record(load, row);
}

static enum refusal read_step(struct reader *reader, struct row *row, unsigned step)
{
    const uint8_t *fields;
    enum refusal refusal = take_record(reader, STEP_BYTES, STEP_MARK, &fields);
    if (refusal != ACCEPTED)
        return refusal;
    row->steps[step - 1] = (struct step){get_2(fields), get_2(fields + 2)};
    return check_step_record(row, step);
}

static enum refusal read_window(struct reader *reader, struct row *row, unsigned window)
{
    const uint8_t *fields;
    enum refusal refusal = take_record(reader, WINDOW_BYTES, WINDOW_MARK, &fields);
    if (refusal != ACCEPTED)
        return refusal;
    row->windows[window - 1] = (struct window){fields[0], fields[1], get_2(fields + 2)};
    return check_window_record(row, window);
}

/* A row record with its steps and then its windows. */
static enum refusal read_row(struct reader *reader, struct load *load, unsigned row)
{
    struct row *place = &load->rows[row - 1];
    enum refusal refusal = read_row_record(reader, load, row);
    for (unsigned step = 1; refusal == ACCEPTED && step <= place->step_count; step++)
        refusal = read_step(reader, place, step);
    for (unsigned window = 1; refusal == ACCEPTED && window <= place->window_count; window++)
        refusal = read_window(reader, place, window);
    return refusal;
}

static enum refusal read_end(struct reader *reader, const struct load *load)
{
    const uint8_t *fields;
    enum refusal refusal = take_record(reader, END_BYTES, END_MARK, &fields);
    if (refusal != ACCEPTED)
        return refusal;
    if (get_2(fields) != steps_of(load) || reader->at != reader->length)
        return END_DIFFERS;
    return ACCEPTED;
}

enum refusal read_load(const uint8_t *bytes, size_t length, struct load *load)
{
    struct reader reader = {.bytes = bytes, .length = length};
    *load = (struct load){0};
    enum refusal refusal = read_header(&reader, load);
    for (unsigned row = 1; refusal == ACCEPTED && row <= load->row_count; row++)
        refusal = read_row(&reader, load, row);
    if (refusal == ACCEPTED)
        refusal = read_end(&reader, load);
    if (refusal != ACCEPTED)
        *load = (struct load){0};
    return refusal;
}
