#include "load_file.h"

#include <string.h>

#include "little_endian.h"
#include "load_marks.h"
#include "plain.h"

size_t load_bytes(const struct load *load, enum version version)
{
    size_t bytes = HEADER_BYTES + END_BYTES;
    for (unsigned row = 1; row <= load->row_count; row++)
        bytes += row_bytes(version) + (size_t)row_of(load, row)->step_count * STEP_BYTES
            + (size_t)row_of(load, row)->window_count * WINDOW_BYTES;
    return bytes;
}

/* What is left for a load that this version can carry: 9, or its file. */
static enum refusal write_good(const struct load *load, enum version version, uint8_t *bytes,
                               size_t room, size_t *written)
{
    size_t length = load_bytes(load, version);
    if (room < length)
        return OUTPUT_SHORT;
    put_load_in(bytes, version, load);
    *written = length;
    return ACCEPTED;
}

enum refusal write_version_1(const struct load *load, uint8_t *bytes, size_t room,
                             size_t *written)
{
    *written = 0;
    enum refusal refusal = check_plain(load);
    return refusal != ACCEPTED ? refusal : write_good(load, VERSION_1, bytes, room, written);
}

enum refusal write_version_2(const struct load *load, uint8_t *bytes, size_t room,
                             size_t *written)
{
    *written = 0;
    enum refusal refusal = check_load(load);
    return refusal != ACCEPTED ? refusal : write_good(load, VERSION_2, bytes, room, written);
}

static uint8_t *put_mark(uint8_t *at, const uint8_t *mark)
{
    memcpy(at, mark, MARK_BYTES);
    return at + MARK_BYTES;
}

uint8_t *put_header(uint8_t *at, enum version version, uint8_t row_count)
{
    return put_1(put_1(put_mark(at, HEADER_MARK), (uint8_t)version), row_count);
}

uint8_t *put_row(uint8_t *at, enum version version, const struct row *row)
{
    at = put_mark(at, ROW_MARK);
    at = put_4(at, row->identifier.number);
    at = put_4(at, row->box.number);
    at = put_4(at, row->phase);
    at = put_4(at, row->deadline);
    at = put_1(put_1(at, row->step_count), row->window_count);
    return version == VERSION_1 ? at : put_1(put_1(at, row->class), row->head);
}

uint8_t *put_step(uint8_t *at, const struct step *step)
{
    return put_2(put_2(put_mark(at, STEP_MARK), step->cost), step->wait);
}

uint8_t *put_window(uint8_t *at, const struct window *window)
{
    at = put_1(put_1(put_mark(at, WINDOW_MARK), window->first), window->last);
    return put_2(at, window->limit);
}

uint8_t *put_end(uint8_t *at, uint16_t steps)
{
    return put_2(put_mark(at, END_MARK), steps);
}

static uint8_t *put_row_with_parts(uint8_t *at, enum version version, const struct row *row)
{
    at = put_row(at, version, row);
    for (unsigned step = 1; step <= row->step_count; step++)
        at = put_step(at, step_of(row, step));
    for (unsigned window = 1; window <= row->window_count; window++)
        at = put_window(at, window_of(row, window));
    return at;
}

uint8_t *put_load_in(uint8_t *at, enum version version, const struct load *load)
{
    at = put_header(at, version, load->row_count);
    for (unsigned row = 1; row <= load->row_count; row++)
        at = put_row_with_parts(at, version, row_of(load, row));
    return put_end(at, (uint16_t)steps_of(load));
}

uint8_t *put_load(uint8_t *at, const struct load *load)
{
    return put_load_in(at, is_plain(load) ? VERSION_1 : VERSION_2, load);
}
