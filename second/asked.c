#include "asked.h"

#include <string.h>

#include "little_endian.h"

enum {
    PROGRESS_BYTES = 9,
    ASKED_STATE_BYTES = 4 + MOST_ROWS * PROGRESS_BYTES,
    ASKED_SLOT_BYTES = 6,
    ASKED_FIELDS_BYTES = 20,
    ASKED_ROW_BYTES = ASKED_FIELDS_BYTES + 4 * MOST_STEPS + 4 * MOST_WINDOWS,
    ASKED_LOAD_BYTES = 1 + MOST_ROWS * ASKED_ROW_BYTES
};

static bool take_bytes(FILE *questions, uint8_t *bytes, size_t length)
{
    return fread(bytes, 1, length, questions) == length;
}

/* A length, count or room of two bytes; false when it is above `most`. */
static bool take_count(FILE *questions, size_t most, size_t *count)
{
    uint8_t bytes[2];
    if (!take_bytes(questions, bytes, sizeof bytes))
        return false;
    *count = get_2(bytes);
    return *count <= most;
}

bool take_asked_file(FILE *questions, struct asked_file *file)
{
    return take_count(questions, MOST_ASKED_BYTES, &file->length)
        && take_bytes(questions, file->bytes, file->length);
}

bool take_asked_sheet(FILE *questions, struct asked_sheet *sheet)
{
    return take_count(questions, MOST_ASKED_SHEET, &sheet->length)
        && take_bytes(questions, sheet->bytes, sheet->length);
}

bool take_asked_room(FILE *questions, size_t most, struct asked_room *room)
{
    memset(room->bytes, ROOM_BYTE, sizeof room->bytes);
    return take_count(questions, most, &room->length);
}

bool take_asked_slots(FILE *questions, struct asked_slots *list)
{
    uint8_t bytes[MOST_ASKED_SLOTS * ASKED_SLOT_BYTES];
    if (!take_count(questions, MOST_ASKED_SLOTS, &list->count)
        || !take_bytes(questions, bytes, list->count * ASKED_SLOT_BYTES))
        return false;
    for (size_t place = 0; place < list->count; place++) {
        const uint8_t *at = bytes + place * ASKED_SLOT_BYTES;
        list->slots[place] = (struct slot){at[0], at[1], get_4(at + 2)};
    }
    return true;
}

bool take_asked_state(FILE *questions, struct bench *state)
{
    uint8_t bytes[ASKED_STATE_BYTES];
    if (!take_bytes(questions, bytes, sizeof bytes))
        return false;
    state->clock = get_4(bytes);
    for (unsigned row = 1; row <= MOST_ROWS; row++) {
        const uint8_t *at = bytes + 4 + (row - 1) * PROGRESS_BYTES;
        state->rows[row - 1] = (struct progress){at[0], get_4(at + 1), get_4(at + 5)};
    }
    return true;
}

static struct row row_in(const uint8_t *at)
{
    struct row row = {{get_4(at)}, {get_4(at + 4)}, get_4(at + 8), get_4(at + 12), at[16], at[17],
                      at[18], at[19], {{0, 0}}, {{0, 0, 0}}};
    at += ASKED_FIELDS_BYTES;
    for (unsigned step = 1; step <= MOST_STEPS; step++, at += 4)
        row.steps[step - 1] = (struct step){get_2(at), get_2(at + 2)};
    for (unsigned window = 1; window <= MOST_WINDOWS; window++, at += 4)
        row.windows[window - 1] = (struct window){at[0], at[1], get_2(at + 2)};
    return row;
}

bool take_asked_load(FILE *questions, struct load *load)
{
    uint8_t bytes[ASKED_LOAD_BYTES];
    if (!take_bytes(questions, bytes, sizeof bytes))
        return false;
    load->row_count = bytes[0];
    for (unsigned row = 1; row <= MOST_ROWS; row++)
        load->rows[row - 1] = row_in(bytes + 1 + (row - 1) * ASKED_ROW_BYTES);
    return true;
}
