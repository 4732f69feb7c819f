/* Load files: bytes to a load or a number (1 to 8 or 21), and a load to bytes. Version 2 carries
   class and head (2026-05); rows of version 1 are read as class 0 and head 1. */
#ifndef LOAD_FILE_H
#define LOAD_FILE_H

#include <stddef.h>

#include "load.h"

enum version { VERSION_1 = 1, VERSION_2 = 2 };

/* A row record of version 2 has class and head behind the fields of version 1. */
enum {
    HEADER_BYTES = 4,
    ROW_BYTES = 20,
    CLASS_AND_HEAD_BYTES = 2,
    STEP_BYTES = 6,
    WINDOW_BYTES = 6,
    END_BYTES = 4,
    MOST_LOAD_BYTES = HEADER_BYTES + END_BYTES
        + MOST_ROWS * (ROW_BYTES + CLASS_AND_HEAD_BYTES + MOST_STEPS * STEP_BYTES
                       + MOST_WINDOWS * WINDOW_BYTES)
};

/* A row record's length. */
size_t row_bytes(enum version version);

/* Of either version. A refused file gives the all-zero load. */
enum refusal read_load(const uint8_t *bytes, size_t length, struct load *load);

/* The length of this load's own file. */
size_t load_bytes(const struct load *load, enum version version);

/* A load's file: 3 to 7 or 21 for the load, then in version 1 22 for a class or head that it cannot
   carry, then 9. On a refusal no byte is written and `written` is 0; bytes past the file stay. */
enum refusal write_version_1(const struct load *load, uint8_t *bytes, size_t room,
                             size_t *written);
enum refusal write_version_2(const struct load *load, uint8_t *bytes, size_t room,
                             size_t *written);

/* Single records, unchecked; each gives the place after it. A row's steps and windows are
   records of their own and are not put by put_row; in version 1 its class and head are lost. */
uint8_t *put_header(uint8_t *at, enum version version, uint8_t row_count);
uint8_t *put_row(uint8_t *at, enum version version, const struct row *row);
uint8_t *put_step(uint8_t *at, const struct step *step);
uint8_t *put_window(uint8_t *at, const struct window *window);
uint8_t *put_end(uint8_t *at, uint16_t steps);

/* A load's records without its check, for a load whose counts fit its places; and the same in the
   lowest version that carries all of it. */
uint8_t *put_load_in(uint8_t *at, enum version version, const struct load *load);
uint8_t *put_load(uint8_t *at, const struct load *load);

#endif
