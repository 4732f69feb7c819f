#include "schedule.h"

#include <string.h>

#include "little_endian.h"

static const uint8_t SCHEDULE_MARK[2] = {0x53, 0x43};
static const uint8_t SLOT_MARK[2] = {0x53, 0x4C};

static uint8_t *put_slot(uint8_t *at, const struct slot *slot)
{
    memcpy(at, SLOT_MARK, sizeof SLOT_MARK);
    at = put_1(at + sizeof SLOT_MARK, slot->row);
    return put_4(put_1(at, slot->step), slot->start);
}

enum refusal write_schedule(const struct slot *slots, size_t count, uint8_t *bytes, size_t room,
                            size_t *written)
{
    *written = 0;
    if (count > MOST_SLOTS)
        return OUT_OF_RANGE;
    if (room < SCHEDULE_HEADER_BYTES + count * SLOT_BYTES)
        return OUTPUT_SHORT;
    memcpy(bytes, SCHEDULE_MARK, sizeof SCHEDULE_MARK);
    uint8_t *at = put_2(bytes + sizeof SCHEDULE_MARK, (uint16_t)count);
    for (size_t place = 0; place < count; place++)
        at = put_slot(at, &slots[place]);
    *written = SCHEDULE_HEADER_BYTES + count * SLOT_BYTES;
    return ACCEPTED;
}

/* What the slots so far have made of a row: how many steps, and where each began. */
struct track {
    unsigned finished;
    uint32_t starts[MOST_STEPS];
};

/* `reader_end` is the end of the slot before in the list, 0 before the first. */
struct tracks {
    uint32_t reader_end;
    struct track rows[MOST_ROWS];
};

static uint32_t end_in(const struct row *row, const struct track *track, unsigned step)
{
    return track->starts[step - 1] + step_of(row, step)->cost;
}

static bool is_next_slot(const struct load *load, const struct tracks *tracks,
                         const struct slot *slot)
{
    if (slot->row < 1 || slot->row > load->row_count)
        return false;
    if (slot->step < 1 || slot->step > row_of(load, slot->row)->step_count)
        return false;
    return slot->step == tracks->rows[slot->row - 1].finished + 1
        && slot->start <= LAST_MOMENT;
}

static bool is_early(const struct row *row, const struct track *track, const struct slot *slot)
{
    if (slot->step == 1)
        return slot->start < row->phase;
    unsigned before = slot->step - 1u;
    return slot->start < end_in(row, track, before) + step_of(row, before)->wait;
}

/* Asked at a window's last step alone, against the start of its first. */
static bool is_window_late(const struct row *row, const struct track *track,
                           const struct slot *slot)
{
    const struct window *window = window_to(row, slot->step);
    if (window == NULL)
        return false;
    uint32_t end = slot->start + step_of(row, slot->step)->cost;
    return end > track->starts[window->first - 1] + window->limit;
}

static bool is_row_late(const struct row *row, const struct slot *slot)
{
    return slot->step == row->step_count
        && slot->start + step_of(row, slot->step)->cost > row->deadline;
}

static enum refusal check_slot(const struct load *load, const struct tracks *tracks,
                               const struct slot *slot)
{
    if (!is_next_slot(load, tracks, slot))
        return NO_SUCH_SLOT;
    const struct row *row = row_of(load, slot->row);
    const struct track *track = &tracks->rows[slot->row - 1];
    if (slot->start < tracks->reader_end)
        return SLOT_OVERLAPS;
    if (is_early(row, track, slot))
        return SLOT_EARLY;
    if (is_window_late(row, track, slot))
        return WINDOW_LATE;
    if (is_row_late(row, slot))
        return ROW_LATE;
    return ACCEPTED;
}

static void follow_slot(const struct load *load, struct tracks *tracks, const struct slot *slot)
{
    struct track *track = &tracks->rows[slot->row - 1];
    track->starts[slot->step - 1] = slot->start;
    track->finished = slot->step;
    tracks->reader_end = end_in(row_of(load, slot->row), track, slot->step);
}

enum refusal check_schedule(const struct load *load, const struct slot *slots, size_t count)
{
    struct tracks tracks = {0};
    enum refusal refusal = check_load(load);
    if (refusal == ACCEPTED && count != steps_of(load))
        refusal = SLOT_COUNT;
    for (size_t place = 0; refusal == ACCEPTED && place < count; place++) {
        refusal = check_slot(load, &tracks, &slots[place]);
        if (refusal == ACCEPTED)
            follow_slot(load, &tracks, &slots[place]);
    }
    return refusal;
}
