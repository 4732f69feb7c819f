/* What opens the records of a load file, for reading and for writing them. */
#ifndef LOAD_MARKS_H
#define LOAD_MARKS_H

#include <stdint.h>

enum { MARK_BYTES = 2 };

static const uint8_t HEADER_MARK[MARK_BYTES] = {0x4C, 0x44};
static const uint8_t ROW_MARK[MARK_BYTES] = {0x52, 0x57};
static const uint8_t STEP_MARK[MARK_BYTES] = {0x53, 0x54};
static const uint8_t WINDOW_MARK[MARK_BYTES] = {0x57, 0x4E};
static const uint8_t END_MARK[MARK_BYTES] = {0x45, 0x4E};

#endif
