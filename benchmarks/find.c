/* Searches for the load of 24 rows of 8 steps whose schedule costs the most.
 *
 * usage: find SEED SECONDS FILE...      a FILE is a load that is known; progress on standard error,
 *                                       the rows of the load that is found on standard output
 *
 * The cost of a load is the number of instructions of one call, where the emulator's plugin counts
 * them; elsewhere the least processor time of some calls. One share of the time goes to the known
 * loads, one to each kind of random loads: the costliest of them is altered again and again, and
 * what costs no less is kept. The last share goes to the costliest of all. Classes are 0. */
#define _POSIX_C_SOURCE 200809L /* for clock_gettime */

#include <inttypes.h>
#include <stdio.h>
#include <stdlib.h>
#include <string.h>
#include <time.h>

#include "forms.h"
#include "full_load.h"
#include "load_file.h"
#include "marks.h"
#include "reading_bench.h"

enum { TIMED_CALLS = 3, MOST_ALTERED = 4, PROGRESS_SECONDS = 10, LEAST_STARTS = 8,
       MOST_ROOM = 40000 };

struct costed {
    struct load load;
    uint64_t cost;
};

struct search {
    struct dice dice;
    bool counts;
    struct marks marks;
    double begin, seconds; /* when it began, and how long it may take */
    double told;           /* when progress was told last */
    uint64_t tried;
    uint64_t most; /* the highest cost so far */
};

static double seconds_of(clockid_t clock)
{
    struct timespec now;
    clock_gettime(clock, &now);
    return (double)now.tv_sec + (double)now.tv_nsec / 1e9;
}

static double seconds_spent(const struct search *search)
{
    return seconds_of(CLOCK_MONOTONIC) - search->begin;
}

static const char *unit_of(const struct search *search)
{
    return search->counts ? "instructions" : "nanoseconds";
}

static uint64_t nanoseconds_of_call(const uint8_t *bytes, size_t length, uint8_t *out)
{
    double least = 1e9;
    for (unsigned call = 0; call < TIMED_CALLS; call++) {
        double begin = seconds_of(CLOCK_PROCESS_CPUTIME_ID);
        bench_schedule(bytes, length, out, BENCH_SCHEDULE_BYTES_MAX);
        double spent = seconds_of(CLOCK_PROCESS_CPUTIME_ID) - begin;
        least = spent < least ? spent : least;
    }
    return (uint64_t)(least * 1e9);
}

static uint64_t cost_of(struct search *search, const struct load *load)
{
    uint8_t bytes[MOST_LOAD_BYTES], out[BENCH_SCHEDULE_BYTES_MAX];
    size_t length;
    uint64_t cost;
    if (write_version_1(load, bytes, sizeof bytes, &length) != ACCEPTED) {
        fputs("find: a load was made that is refused\n", stderr);
        exit(1);
    }
    if (search->counts) {
        mark(&search->marks);
        bench_schedule(bytes, length, out, sizeof out);
        cost = mark(&search->marks);
    } else {
        cost = nanoseconds_of_call(bytes, length, out);
    }
    search->tried++;
    search->most = cost > search->most ? cost : search->most;
    return cost;
}

static void tell_progress(struct search *search, const char *what)
{
    double now = seconds_spent(search);
    if (now - search->told < PROGRESS_SECONDS)
        return;
    search->told = now;
    fprintf(stderr, "find: %.0f s of %.0f, %s, %" PRIu64 " loads tried, the most %" PRIu64 " %s\n",
            now, search->seconds, what, search->tried, search->most, unit_of(search));
}

/* Any number up to the most, small ones and the ends more often than others. */
static uint32_t any_number(struct dice *dice, uint32_t least, uint32_t most)
{
    switch (throw_dice(dice) % 4) {
    case 0: return least;
    case 1: return most;
    case 2: return between(dice, least, least + (most - least) / 16);
    default: return between(dice, least, most);
    }
}

static uint32_t nearby(struct dice *dice, uint32_t number, uint32_t least, uint32_t most)
{
    uint32_t far = between(dice, 1, throw_dice(dice) % 2 == 0 ? 4 : 400);
    if (throw_dice(dice) % 2 == 0)
        return number - least < far ? least : number - far;
    return most - number < far ? most : number + far;
}

/* One row gets the numbers of another, but not who it is. */
static void copy_row(struct load *load, unsigned to, unsigned from)
{
    struct row old = load->rows[to];
    load->rows[to] = load->rows[from];
    load->rows[to].identifier = old.identifier;
    load->rows[to].box = old.box;
}

static void exchange_rows(struct load *load, unsigned one, unsigned other)
{
    struct load before = *load;
    copy_row(load, one, other);
    load->rows[other] = before.rows[one];
    load->rows[other].identifier = before.rows[other].identifier;
    load->rows[other].box = before.rows[other].box;
}

/* Every window has so much more room than that of the row before. */
static void stagger(struct load *load, uint32_t more)
{
    for (unsigned row = 0; row < MOST_ROWS; row++)
        for (unsigned place = 0; place < load->rows[row].window_count; place++)
            give_room(&load->rows[row], &load->rows[row].windows[place], more * row);
}

/* All rows are alike but for the room of their windows. */
static void make_even(struct dice *dice, struct load *load, unsigned like)
{
    for (unsigned row = 0; row < MOST_ROWS; row++)
        copy_row(load, row, like);
    stagger(load, any_number(dice, 0, 1000));
}

static struct load any_start(struct dice *dice, enum kind kind)
{
    struct most most;
    most.cost = any_number(dice, 1, MOST_COST);
    most.wait = any_number(dice, 0, MOST_WAIT);
    most.room = any_number(dice, 0, MOST_ROOM);
    most.phase = throw_dice(dice) % 2 == 0 ? 0 : any_number(dice, 0, MOST_PHASE);
    struct load load = load_of_kind(dice, kind, MOST_ROWS, MOST_STEPS, &most);
    if (throw_dice(dice) % 2 == 0)
        make_even(dice, &load, 0);
    return load;
}

static void alter_step(struct dice *dice, struct row *row)
{
    unsigned place = throw_dice(dice) % MOST_STEPS;
    struct step *step = &row->steps[place];
    bool near = throw_dice(dice) % 2 == 0;
    if (place + 1 == MOST_STEPS || throw_dice(dice) % 3 == 0)
        step->cost = (uint16_t)(near ? nearby(dice, step->cost, 1, MOST_COST)
                                     : any_number(dice, 1, MOST_COST));
    else
        step->wait = (uint16_t)(near ? nearby(dice, step->wait, 0, MOST_WAIT)
                                     : any_number(dice, 0, MOST_WAIT));
}

static void alter_limit(struct dice *dice, struct row *row)
{
    if (row->window_count == 0)
        return;
    struct window *window = &row->windows[throw_dice(dice) % row->window_count];
    uint32_t chain = chain_of(row, window);
    window->limit = (uint16_t)(throw_dice(dice) % 2 == 0
                                   ? nearby(dice, window->limit, chain, UINT16_MAX)
                                   : any_number(dice, chain, UINT16_MAX));
}

static void alter_windows(struct dice *dice, struct row *row)
{
    unsigned windows = between(dice, 1, MOST_WINDOWS);
    place_windows(dice, row, windows, any_number(dice, 0, MOST_ROOM));
    if (windows == 1 && throw_dice(dice) % 2 == 0) {
        row->windows[0].first = 1;
        row->windows[0].last = MOST_STEPS;
        give_room(row, &row->windows[0], any_number(dice, 0, MOST_ROOM));
    }
}

/* A wait, or a cost, of all rows. */
static void alter_column(struct dice *dice, struct load *load)
{
    unsigned place = throw_dice(dice) % MOST_STEPS;
    bool cost = place + 1 == MOST_STEPS || throw_dice(dice) % 3 == 0;
    uint32_t number = cost ? any_number(dice, 1, MOST_COST) : any_number(dice, 0, MOST_WAIT);
    for (unsigned row = 0; row < MOST_ROWS; row++)
        if (cost)
            load->rows[row].steps[place].cost = (uint16_t)number;
        else
            load->rows[row].steps[place].wait = (uint16_t)number;
}

/* Windows keep their room where their chain has changed. */
static void keep_rooms(struct load *load, const struct load *before)
{
    for (unsigned row = 0; row < MOST_ROWS; row++)
        for (unsigned place = 0; place < load->rows[row].window_count; place++) {
            const struct window *old = &before->rows[row].windows[place];
            give_room(&load->rows[row], &load->rows[row].windows[place],
                      old->limit - chain_of(&before->rows[row], old));
        }
}

static void alter(struct dice *dice, struct load *load)
{
    struct load before = *load;
    unsigned other = throw_dice(dice) % MOST_ROWS;
    unsigned chosen = throw_dice(dice) % MOST_ROWS;
    struct row *row = &load->rows[chosen];
    switch (throw_dice(dice) % 12) {
    case 0: alter_windows(dice, row); break;
    case 1: copy_row(load, chosen, other); break;
    case 2: exchange_rows(load, chosen, other); break;
    case 3: row->phase = any_number(dice, 0, throw_dice(dice) % 2 == 0 ? 0 : MOST_PHASE); break;
    case 4: make_even(dice, load, chosen); break;
    case 5: stagger(load, any_number(dice, 0, 1000)); break;
    case 6:
    case 7:
        alter_column(dice, load);
        keep_rooms(load, &before);
        break;
    case 8:
    case 9:
        alter_step(dice, row);
        keep_rooms(load, &before);
        break;
    default: alter_limit(dice, row); break;
    }
}

/* The costliest of the known loads; those with fewer rows or steps are left out. */
static struct costed best_known(struct search *search, char **paths)
{
    struct costed best = {.cost = 0};
    for (; *paths != NULL; paths++) {
        struct file file;
        struct costed next;
        if (!take_file(*paths, &file)
            || read_load(file.bytes, file.length, &next.load) != ACCEPTED) {
            fprintf(stderr, "find: %s: is no load file\n", *paths);
            exit(2);
        }
        if (steps_of(&next.load) < MOST_ROWS * MOST_STEPS)
            continue;
        next.cost = cost_of(search, &next.load);
        if (next.cost > best.cost)
            best = next;
        tell_progress(search, "known loads");
    }
    return best;
}

/* The costliest of random loads of that kind, until that second. */
static struct costed best_start(struct search *search, enum kind kind, double until)
{
    struct costed best = {.load = any_start(&search->dice, kind)};
    best.cost = cost_of(search, &best.load);
    for (unsigned made = 1; made < LEAST_STARTS || seconds_spent(search) < until; made++) {
        struct costed next = {.load = any_start(&search->dice, kind)};
        next.cost = cost_of(search, &next.load);
        if (next.cost > best.cost)
            best = next;
        tell_progress(search, KIND_NAMES[kind]);
    }
    return best;
}

static void climb(struct search *search, struct costed *best, const char *what, double until)
{
    while (seconds_spent(search) < until) {
        struct costed next = *best;
        for (unsigned left = between(&search->dice, 1, MOST_ALTERED); left > 0; left--)
            alter(&search->dice, &next.load);
        next.cost = cost_of(search, &next.load);
        if (next.cost >= best->cost)
            *best = next;
        tell_progress(search, what);
    }
}

/* Climbs until that second, tells what that gave, and keeps the costlier of two. */
static void climb_from(struct search *search, struct costed *start, const char *what, double until,
                       struct costed *best)
{
    if (start->cost == 0)
        return;
    climb(search, start, what, until);
    fprintf(stderr, "find: from %s: %" PRIu64 " %s\n", what, start->cost, unit_of(search));
    if (start->cost > best->cost)
        *best = *start;
}

int main(int count, char **words)
{
    if (count < 3) {
        fputs("find: it is find SEED SECONDS FILE...\n", stderr);
        return 2;
    }
    struct search search = {.dice = dice_of(strtoull(words[1], NULL, 10)),
                            .seconds = strtod(words[2], NULL),
                            .begin = seconds_of(CLOCK_MONOTONIC)};
    search.counts = open_marks(&search.marks);
    double share = search.seconds / (KINDS + 2);
    struct costed best = {.cost = 0};
    struct costed start = best_known(&search, words + 3);
    climb_from(&search, &start, "known loads", share, &best);
    for (unsigned kind = 0; kind < KINDS; kind++) {
        double end = share * (kind + 2);
        start = best_start(&search, (enum kind)kind, end - share * 3 / 4);
        climb_from(&search, &start, KIND_NAMES[kind], end, &best);
    }
    start = best;
    climb_from(&search, &start, "the costliest", search.seconds, &best);
    fprintf(stderr, "find: %" PRIu64 " loads tried\n", search.tried);
    printf("# %" PRIu64 " %s\n", best.cost, unit_of(&search));
    print_rows(&best.load);
    return fflush(stdout) == 0 ? 0 : 2;
}
