/* Compares two archives of the library on random loads, byte for byte.
 *
 * usage: same_answers LOADS SEED [ALTERED]      progress on standard error; ALTERED is a load,
 *                                               counted from 1, of whose schedule one byte is
 *                                               altered: a difference that must show
 *
 * The calls of the archive before have the names before_schedule and so on. Most loads have 24 rows
 * of 8 steps. Schedules are compared on every load, the other answers on some; some loads are
 * spoilt, so that they may be refused, and some outputs are a byte too short. The number that is
 * given and all bytes of the output must be the same, also those that no call writes. Files are of
 * version 1, which an archive from before 1.2 knows alone; a spoilt class or head is lost in them.
 *
 * Exit status: 0 where there is no difference, 1 where there is one, 2 for a wrong use. */
#define _POSIX_C_SOURCE 199309L /* for clock_gettime */

#include <inttypes.h>
#include <stdio.h>
#include <stdlib.h>
#include <string.h>
#include <time.h>

#include "full_load.h"
#include "load_file.h"
#include "reading_bench.h"

enum { SAME = 0, DIFFERENT = 1, CANNOT = 2 };
enum { SMALLER_EVERY = 4, SPOILT_EVERY = 16, SHORT_EVERY = 64, OTHERS_EVERY = 8 };
enum { PROGRESS_SECONDS = 10, SPARE = 8, PAINT = 0xA5 };

typedef uint32_t answer_call(const uint8_t *load, size_t load_len, uint8_t *out, size_t out_len);
answer_call before_schedule, before_bound, before_margins, before_verdict;

/* A call of both archives, and the length of its answer; 0 for the schedule, which has its own. */
struct asked {
    const char *name;
    answer_call *now;
    answer_call *before;
    size_t length;
};

static const struct asked CALLS[] = {
    {"bench_schedule", bench_schedule, before_schedule, 0},
    {"bench_bound", bench_bound, before_bound, BENCH_BOUND_BYTES},
    {"bench_margins", bench_margins, before_margins, BENCH_MARGINS_BYTES},
    {"bench_verdict", bench_verdict, before_verdict, BENCH_VERDICT_BYTES},
};

enum { CALL_COUNT = sizeof CALLS / sizeof *CALLS };

/* How many loads of a thousand have numbers of that size. Large ones take an archive that asks
   refused ticks one by one a hundred times as long. */
struct share {
    unsigned loads;
    struct most most;
};

static const struct share SHARES[] = {
    {392, {3, 5, 20, 0}},        {150, {9, 40, 60, 30}},      {250, {5, 40, 400, 0}},
    {60, {20, 100, 400, 100}},   {100, {20, 100, 3000, 100}}, {20, {60, 300, 1000, 500}},
    {20, {60, 300, 3000, 0}},    {5, {20, 600, 5000, 0}},     {1, {1, 3600, 20000, 0}},
    {2, {600, 3600, 20000, 86400}},
};

static const struct most *any_most(struct dice *dice)
{
    unsigned place = 0;
    unsigned left = throw_dice(dice) % 1000;
    for (; left >= SHARES[place].loads; place++)
        left -= SHARES[place].loads;
    return &SHARES[place].most;
}

static struct load any_full_load(struct dice *dice)
{
    const struct most *most = any_most(dice);
    unsigned rows = MOST_ROWS;
    unsigned steps = MOST_STEPS;
    if (throw_dice(dice) % SMALLER_EVERY == 0) {
        rows = between(dice, 1, MOST_ROWS);
        steps = between(dice, 1, MOST_STEPS);
    }
    struct load load
        = load_of_kind(dice, (enum kind)(throw_dice(dice) % KINDS), rows, steps, most);
    if (throw_dice(dice) % SPOILT_EVERY == 0)
        spoil(dice, &load);
    return load;
}

struct tally {
    uint64_t altered; /* counted from 1; none where it is 0 */
    uint64_t answers;
    uint64_t refusals;
};

/* Asks both archives, each for an output of so much room, before bytes that nobody may write. */
static bool agree(struct tally *tally, const struct asked *asked, const uint8_t *bytes,
                  size_t length, size_t room, bool altered)
{
    uint8_t now[BENCH_SCHEDULE_BYTES_MAX + SPARE], before[sizeof now];
    memset(now, PAINT, sizeof now);
    memset(before, PAINT, sizeof before);
    uint32_t number = asked->now(bytes, length, now, room);
    uint32_t number_before = asked->before(bytes, length, before, room);
    now[0] ^= altered;
    tally->answers++;
    tally->refusals += number != BENCH_GOOD;
    return number == number_before && memcmp(now, before, sizeof now) == 0;
}

static int compare(struct tally *tally, struct dice *dice, uint64_t made)
{
    struct load load = any_full_load(dice);
    uint8_t bytes[MOST_LOAD_BYTES];
    size_t length = (size_t)(put_load_in(bytes, VERSION_1, &load) - bytes);
    size_t schedule_length = BENCH_SCHEDULE_BYTES(steps_of(&load));
    bool is_short = throw_dice(dice) % SHORT_EVERY == 0;
    unsigned calls = made % OTHERS_EVERY == 0 ? CALL_COUNT : 1;
    for (unsigned place = 0; place < calls; place++) {
        const struct asked *asked = &CALLS[place];
        size_t answer = asked->length == 0 ? schedule_length : asked->length;
        bool altered = place == 0 && made == tally->altered;
        if (agree(tally, asked, bytes, length, answer - is_short, altered))
            continue;
        printf("%s differs on load %" PRIu64 ":\n", asked->name, made);
        print_rows(&load);
        return DIFFERENT;
    }
    return SAME;
}

static double seconds_now(void)
{
    struct timespec now;
    clock_gettime(CLOCK_MONOTONIC, &now);
    return (double)now.tv_sec + (double)now.tv_nsec / 1e9;
}

static int compare_loads(struct tally *tally, struct dice dice, uint64_t loads)
{
    double begin = seconds_now();
    double told = begin;
    int found = SAME;
    for (uint64_t made = 1; made <= loads && found == SAME; made++) {
        found = compare(tally, &dice, made);
        double now = seconds_now();
        if (now - told < PROGRESS_SECONDS)
            continue;
        told = now;
        fprintf(stderr, "same answers: %" PRIu64 " of %" PRIu64 " loads, %.0f s; %.0f s are left\n",
                made, loads, now - begin, (now - begin) / (double)made * (double)(loads - made));
    }
    return found;
}

int main(int count, char **words)
{
    if (count < 3 || count > 4) {
        fputs("same_answers: it is same_answers LOADS SEED [ALTERED]\n", stderr);
        return CANNOT;
    }
    struct tally tally = {.altered = count == 4 ? strtoull(words[3], NULL, 10) : 0};
    uint64_t loads = strtoull(words[1], NULL, 10);
    int found = compare_loads(&tally, dice_of(strtoull(words[2], NULL, 10)), loads);
    if (found == SAME)
        printf("same answers: %" PRIu64 " loads from seed %s, %" PRIu64 " answers, %" PRIu64
               " of them refusals: no difference\n",
               loads, words[2], tally.answers, tally.refusals);
    return fflush(stdout) == 0 ? found : CANNOT;
}
