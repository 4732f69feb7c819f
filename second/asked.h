/* What a trial's question lends, taken from its bytes (trials.h says which); each is false when
   the question is cut short or a length, count or room is too large. */
#ifndef ASKED_H
#define ASKED_H

#include <stdio.h>

#include "schedule.h"

enum {
    MOST_ASKED_BYTES = 4096,
    MOST_ASKED_SHEET = 16384,
    MOST_ASKED_SLOTS = 256,
    MOST_ASKED_ROOM = 4096,
    MOST_SHEET_ROOM = 10240,
    ROOM_BYTE = 0xA5
};

struct asked_file {
    size_t length;
    uint8_t bytes[MOST_ASKED_BYTES];
};

struct asked_sheet {
    size_t length;
    uint8_t bytes[MOST_ASKED_SHEET];
};

/* An output to be lent; every byte is A5. */
struct asked_room {
    size_t length;
    uint8_t bytes[MOST_SHEET_ROOM];
};

struct asked_slots {
    size_t count;
    struct slot slots[MOST_ASKED_SLOTS];
};

bool take_asked_file(FILE *questions, struct asked_file *file);
bool take_asked_sheet(FILE *questions, struct asked_sheet *sheet);
bool take_asked_slots(FILE *questions, struct asked_slots *list);
bool take_asked_state(FILE *questions, struct bench *state);

/* At most `most` bytes, which are MOST_ASKED_ROOM, or for a sheet MOST_SHEET_ROOM. */
bool take_asked_room(FILE *questions, size_t most, struct asked_room *room);

/* The places as they are lent, used or not. */
bool take_asked_load(FILE *questions, struct load *load);

#endif
