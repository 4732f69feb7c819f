/* Schedules: their file, and the check of any slot list against its load. */
#ifndef SCHEDULE_H
#define SCHEDULE_H

#include <stddef.h>

#include "bench.h"

enum {
    SCHEDULE_HEADER_BYTES = 4,
    SLOT_BYTES = 8,
    MOST_SCHEDULE_BYTES = SCHEDULE_HEADER_BYTES + MOST_SLOTS * SLOT_BYTES
};

/* The slots' numbers are not checked. 3 for more than 192 of them, then 9; a refusal writes
   no byte and `written` is 0; bytes past the file stay. */
enum refusal write_schedule(const struct slot *slots, size_t count, uint8_t *bytes, size_t room,
                            size_t *written);

/* 3 to 7 or 21 for the load, 12 for the count, then slot by slot 13 to 17. */
enum refusal check_schedule(const struct load *load, const struct slot *slots, size_t count);

#endif
