/* The reading bench, for a host in C.
 *
 * A load file says which loggers stand on the bench and what each of them needs. From its bytes
 * these calls give the bound on the moment at which all steps are over, the margin of each row, the
 * verdict, and the schedule. docs/FORMATS.md has every byte of both files. A load file is of
 * version 1, or of version 2, whose rows have class and head besides; its third byte says which.
 */
#ifndef READING_BENCH_H
#define READING_BENCH_H

#include <stddef.h>
#include <stdint.h>

#ifdef __cplusplus
extern "C" {
#endif

/* The version of this header and of the archive beside it. A later MINOR has every call, size and
 * number of this one, but that BENCH_LOAD_BYTES_MAX can be larger. 1.1 has number 21 besides, for
 * files that 1.0 answered. 1.2 answers load files of version 2, which 1.1 refused with 2, and those
 * of version 1 as before. */
#define BENCH_VERSION_MAJOR 1
#define BENCH_VERSION_MINOR 2
#define BENCH_VERSION "1.2"

/* Duties and promises of every call
 *
 * The caller sees to this:
 * - `load` points to `load_len` bytes that can be read, `out` to `out_len` bytes that can be
 *   written. Neither is null, also where its length is 0; neither needs to be aligned.
 * - The two do not overlap, and nobody else writes to them while the call runs.
 *
 * The call keeps this:
 * - Both are lent for the call, and kept by nobody. `load` is not altered, and no byte outside of
 *   the two is read or written.
 * - It returns 0 and has written the answer at the front of `out`, or one of the numbers below and
 *   has written nothing. Bytes after the answer stay as they were.
 * - Any bytes may be lent as a load file, of any length: what is wrong with them a number tells.
 * - It allocates nothing, keeps no state between calls, and always returns. Calls with outputs of
 *   their own may run at the same time.
 */

/* The numbers that these calls give, in the order of the documents' table. */
#define BENCH_GOOD 0              /* the answer is written */
#define BENCH_FILE_SHORT 1        /* the file ends before or inside a record that is due */
#define BENCH_MARK_DIFFERS 2      /* a mark differs, or the version is not 1 or 2 */
#define BENCH_OUT_OF_RANGE 3      /* a number is outside its range */
#define BENCH_IDENTIFIER_TAKEN 4  /* the identifier stands in an earlier row */
#define BENCH_BOX_TAKEN 5         /* the box stands in an earlier row */
#define BENCH_WINDOW_STEPS 6      /* a window's steps are not there, or not in order */
#define BENCH_LIMIT_BELOW_CHAIN 7 /* a window's limit is below its chain */
#define BENCH_END_DIFFERS 8       /* the end count is wrong, or bytes follow */
#define BENCH_OUTPUT_SHORT 9      /* `out_len` is below the length of this answer */
#define BENCH_FACTORY_IDENTIFIER 21 /* the identifier is 4,294,967,295, which is the factory's */

/* Sizes in bytes. */
#define BENCH_BOUND_BYTES 4
#define BENCH_VERDICT_BYTES 1
#define BENCH_MARGINS_BYTES 96
#define BENCH_SCHEDULE_BYTES(slots) (4 + 8 * (slots))
#define BENCH_SCHEDULE_BYTES_MAX 1540 /* 192 slots: 24 rows of 8 steps */
#define BENCH_LOAD_BYTES_MAX 2264     /* the longest load file that is not refused: of version 2 */

/* Stack and time, for x86-64: measured, not proved. docs/PERFORMANCE.md has loads and commands.
 *
 * Stack: so many bytes are enough for a call, from its return address down. A program that binds
 *   names at their first use needs some 4 KiB more for its loader, once.
 * Time: bound and margins together ran at most 2.5 million instructions on every load measured;
 *   the verdict runs what the margins run. The schedule ran at most 0.5 million on most full loads,
 *   and 2.1 million on the worst that is known, which is a millisecond or less.
 */
#define BENCH_BOUND_STACK 5888
#define BENCH_VERDICT_STACK 5888
#define BENCH_MARGINS_STACK 5888
#define BENCH_SCHEDULE_STACK 9216

/* bench_bound gives the bound of the load.
 *
 * Answer: 4 bytes, a number from 0 to 806,400, little-endian.
 * Numbers: 1 to 8 or 21 by the first faulty record of the file, then 9 where `out_len` is below 4.
 * Example: load A gives 13 00 00 00, which is 19.
 */
uint32_t bench_bound(const uint8_t *load, size_t load_len, uint8_t *out, size_t out_len);

/* bench_verdict says whether no margin of the load is negative.
 *
 * Answer: 1 byte, 1 for yes and 0 for no.
 * Numbers: 1 to 8 or 21 by the first faulty record of the file, then 9 where `out_len` is 0.
 * Example: load A gives 00: the margin of row 3 is -1.
 */
uint32_t bench_verdict(const uint8_t *load, size_t load_len, uint8_t *out, size_t out_len);

/* bench_margins gives the margin of each row: its deadline less its row bound.
 *
 * Answer: 96 bytes, 4 to a row, little-endian two's complement, from -806,399 to 999,999. The
 *   margin of row n stands at 4 * (n - 1). Those of rows that the load does not have are 0.
 * Numbers: 1 to 8 or 21 by the first faulty record of the file, then 9 where `out_len` is below 96.
 * Example: load A gives 01 00 00 00, 00 00 00 00, FF FF FF FF and 84 bytes 00: 1, 0 and -1.
 */
uint32_t bench_margins(const uint8_t *load, size_t load_len, uint8_t *out, size_t out_len);

/* bench_schedule gives the schedule file of the load: the starts of its run, in order.
 *
 * Answer: 53 43 and the number of slots (2 bytes), then per slot 53 4C, row (1), step (1) and start
 *   (4); little-endian, rows and steps from 1. BENCH_SCHEDULE_BYTES(slots) bytes, a slot for each
 *   step of the load, so that BENCH_SCHEDULE_BYTES_MAX is always enough.
 * Numbers: 1 to 8 or 21 by the first faulty record of the file, then 9 where `out_len` is below
 *   the length of this schedule file.
 * Example: load A gives 52 bytes, the first 53 43 06 00 53 4C 01 01 00 00 00 00: 6 slots, and
 *   step 1 of row 1 starts at 0.
 */
uint32_t bench_schedule(const uint8_t *load, size_t load_len, uint8_t *out, size_t out_len);

#ifdef __cplusplus
}
#endif

#endif
