/* Load files, sound and damaged, the same for the same dice on every machine. */
#ifndef DAMAGED_FILE_H
#define DAMAGED_FILE_H

#include "load_file.h"
#include "random_load.h"

/* Room for the longest load file and what is appended to it. */
enum { DAMAGED_MOST = MOST_LOAD_BYTES + 4 };

/* Where a load file has its version. */
enum { VERSION_AT = 2 };

struct damaged_file {
    size_t length;
    uint8_t bytes[DAMAGED_MOST];
};

/* The file of a turn, counted from 0, of version 1 or 2. Every fourth is sound, now and then one
   with long waits, one of 24 rows of 8 steps, or one with no rows; the others are damaged, each in
   one way of many. */
void make_file(struct dice *dice, uint64_t turn, struct damaged_file *file);

#endif
