/* What is measured of the library: calls over a load file's bytes, each filling an output. */
#ifndef FORMS_H
#define FORMS_H

#include <stdbool.h>

#include "reading_bench.h"

/* Room for one byte more than the longest file, so that a longer one is refused. */
struct file {
    size_t length;
    uint8_t bytes[BENCH_LOAD_BYTES_MAX + 1];
};

struct output {
    uint8_t bytes[BENCH_SCHEDULE_BYTES_MAX];
};

/* Gives 0, or something else where a call refuses. */
typedef uint32_t form(const struct file *file, struct output *out);

form our_schedule;
form our_margins; /* the bound, and the margins behind it */

/* Which form a word names: `schedule` is 0, `bound-and-margins` is 1; 2 where it names none. */
enum { SCHEDULE, BOUND_AND_MARGINS, NO_FORM };
unsigned form_named(const char *word);

/* Whether there was a file to read. */
bool take_file(const char *path, struct file *file);

#endif
