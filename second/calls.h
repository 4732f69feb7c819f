/* What a C host gets, by plain calls over a load file's bytes, for comparing and for measuring.
   Each gives 0 or the number the load is refused with (1 to 8 or 21), then 9 when the output is
   shorter than this answer. A refusal writes nothing; bytes past the answer stay as they were. The
   load is not altered, nothing is allocated and nothing is kept between calls. */
#ifndef CALLS_H
#define CALLS_H

#include <stddef.h>
#include <stdint.h>

enum { BOUND_BYTES = 4, MARGINS_BYTES = 96, VERDICT_BYTES = 1 };

/* 4 bytes, little-endian. */
uint32_t second_bound(const uint8_t *load, size_t load_len, uint8_t *out, size_t out_len);

/* 96 bytes, 4 to a row, little-endian two's complement; 0 for rows not there. */
uint32_t second_margins(const uint8_t *load, size_t load_len, uint8_t *out, size_t out_len);

/* 1 byte: 1 for yes, 0 for no. */
uint32_t second_verdict(const uint8_t *load, size_t load_len, uint8_t *out, size_t out_len);

/* The schedule file, 4 bytes and 8 to a slot: the starts from fresh to Done, found tick by tick. */
uint32_t second_schedule(const uint8_t *load, size_t load_len, uint8_t *out, size_t out_len);

#endif
