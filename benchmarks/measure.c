/* Measures the library's calls against the second program's, which walks every tick, in one run and
   on the same load file.

   usage: measure schedule|bound-and-margins FILE      prints the microseconds of our call, those of
                                                       theirs, and how many times as fast ours is

   Both forms fill an output of their own, and the answers must agree before anything is timed; the
   exit status is 1 where they differ, 2 for a wrong use or a file that cannot be read.
   Time is the processor's, so that other programs count for little. A round times each form once,
   one right behind the other, so that whatever slows the machine slows both. The fastest round of
   each counts. */
#define _POSIX_C_SOURCE 199309L /* for clock_gettime */

#include <stdint.h>
#include <stdio.h>
#include <string.h>
#include <time.h>

#include "calls.h"
#include "forms.h"

enum { ROUNDS = 7 };

/* A round of a form lasts at least so many seconds, and no round begins after so many. */
static const double LEAST_SECONDS = 0.02;
static const double MOST_SECONDS = 10;

static uint32_t their_schedule(const struct file *file, struct output *out)
{
    return second_schedule(file->bytes, file->length, out->bytes, sizeof out->bytes);
}

static uint32_t their_margins(const struct file *file, struct output *out)
{
    return second_bound(file->bytes, file->length, out->bytes, BENCH_BOUND_BYTES)
        + second_margins(file->bytes, file->length, out->bytes + BENCH_BOUND_BYTES,
                         BENCH_MARGINS_BYTES);
}

static double seconds_now(void)
{
    struct timespec now;
    clock_gettime(CLOCK_PROCESS_CPUTIME_ID, &now);
    return (double)now.tv_sec + (double)now.tv_nsec / 1e9;
}

/* The seconds of one call, over as many calls as fill a round: twice as many until they do, since
   to ask for the time takes time as well. */
static double seconds_of(form *call, const struct file *file)
{
    struct output out;
    double spent = 0;
    unsigned long calls = 1;
    for (; spent < LEAST_SECONDS; calls *= 2) {
        double begin = seconds_now();
        for (unsigned long made = 0; made < calls; made++)
            call(file, &out);
        spent = seconds_now() - begin;
    }
    return spent / (double)(calls / 2);
}

static bool agree(form *ours, form *theirs, const struct file *file)
{
    struct output our_output = {{0}};
    struct output their_output = {{0}};
    return ours(file, &our_output) == 0 && theirs(file, &their_output) == 0
        && memcmp(&our_output, &their_output, sizeof our_output) == 0;
}

static double lower(double a, double b)
{
    return a < b ? a : b;
}

static void time_both(form *ours, form *theirs, const struct file *file)
{
    double our_best = 1e9;
    double their_best = 1e9;
    double begin = seconds_now();
    for (unsigned round = 0; round < ROUNDS; round++) {
        our_best = lower(our_best, seconds_of(ours, file));
        their_best = lower(their_best, seconds_of(theirs, file));
        if (seconds_now() - begin > MOST_SECONDS)
            break;
    }
    printf("%.1f %.1f %.2f\n", our_best * 1e6, their_best * 1e6, their_best / our_best);
}

int main(int count, char **words)
{
    static form *const ours[] = {our_schedule, our_margins};
    static form *const theirs[] = {their_schedule, their_margins};
    static struct file file;
    unsigned chosen = count == 3 ? form_named(words[1]) : NO_FORM;
    if (chosen == NO_FORM || !take_file(words[2], &file)) {
        fputs("measure: it is measure schedule|bound-and-margins FILE\n", stderr);
        return 2;
    }
    if (!agree(ours[chosen], theirs[chosen], &file)) {
        fprintf(stderr, "measure: %s, %s: the answers differ\n", words[2], words[1]);
        return 1;
    }
    time_both(ours[chosen], theirs[chosen], &file);
    return 0;
}
