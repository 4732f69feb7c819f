/* Loads and schedules written into rooms that are too short, exact and longer. */
#include "load_file.h"
#include "questions.h"

enum { ROOMS = 6, MUCH_MORE = 40 };

/* Around the length of what is to be written, the least room and the largest. */
static size_t room_for(size_t length, unsigned place)
{
    switch (place) {
    case 0: return 0;
    case 1: return length - 1;
    case 2: return length;
    case 3: return length + 1;
    case 4: return length + MUCH_MORE;
    default: return MOST_ASKED_BYTES;
    }
}

static void ask_load_in_rooms(struct asking *asking, const struct load *load)
{
    for (unsigned place = 0; place < ROOMS; place++)
        ask_load_in_room(asking, room_for(load_bytes(load, VERSION_1), place), load);
}

static void ask_loads(struct asking *asking)
{
    static const unsigned sizes[][3] = {{0, 1, 0}, {1, 1, 0}, {3, 2, 1}, {2, 7, 3}};
    for (unsigned place = 0; place < 4; place++) {
        const unsigned *size = sizes[place];
        struct load load = load_with(&asking->dice, size[0], size[1], size[2]);
        ask_load_in_rooms(asking, &load);
    }
    struct load full = load_with(&asking->dice, MOST_ROWS, MOST_STEPS, MOST_WINDOWS);
    ask_load_in_rooms(asking, &full);
}

/* From 193 slots on, 3 comes first whatever the room. */
static void ask_lists(struct asking *asking)
{
    static const size_t counts[] = {0, 1, 7, 191, 192, 193, 256};
    struct asked_slots list = {0};
    for (size_t place = 0; place < MOST_ASKED_SLOTS; place++)
        list.slots[place] = (struct slot){(uint8_t)place, (uint8_t)(place + 1),
                                          throw_dice(&asking->dice)};
    for (size_t at = 0; at < sizeof counts / sizeof counts[0]; at++) {
        list.count = counts[at];
        for (unsigned place = 0; place < ROOMS; place++)
            ask_schedule_in_room(asking, room_for(SCHEDULE_HEADER_BYTES
                                                  + list.count * SLOT_BYTES, place), &list);
    }
}

void ask_rooms(struct asking *asking)
{
    ask_loads(asking);
    ask_lists(asking);
}
