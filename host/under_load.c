/* The calls for C under load: tens of thousands of load files, sound and damaged, are lent to the
 * bench and to the second program, and every answer is compared.
 *
 * usage: under_load FILES [ALTERED]      ALTERED is an answer, counted from 1, of which one byte
 *                                        is altered: a difference that must show
 *
 * Each call is lent rooms of several lengths, at any alignment, with guard bytes round every slice.
 * Numbers, answers, bytes past the answer, guard bytes and the lent file must all be the same
 * afterwards. */
#include <inttypes.h>
#include <stdbool.h>
#include <stdio.h>
#include <stdlib.h>
#include <string.h>

#include "calls.h"
#include "damaged_file.h"
#include "numbers.h"
#include "reading_bench.h"

enum { SAME = 0, DIFFERENT = 1, CANNOT = 2 };
enum { GUARD = 24, SPARE = 7, ROOM_MOST = BENCH_SCHEDULE_BYTES_MAX + SPARE };

_Static_assert(BENCH_GOOD == ACCEPTED, "0");
_Static_assert(BENCH_FILE_SHORT == FILE_SHORT, "1");
_Static_assert(BENCH_MARK_DIFFERS == MARK_DIFFERS, "2");
_Static_assert(BENCH_OUT_OF_RANGE == OUT_OF_RANGE, "3");
_Static_assert(BENCH_IDENTIFIER_TAKEN == IDENTIFIER_TAKEN, "4");
_Static_assert(BENCH_BOX_TAKEN == BOX_TAKEN, "5");
_Static_assert(BENCH_WINDOW_STEPS == WINDOW_STEPS, "6");
_Static_assert(BENCH_LIMIT_BELOW_CHAIN == LIMIT_BELOW_CHAIN, "7");
_Static_assert(BENCH_END_DIFFERS == END_DIFFERS, "8");
_Static_assert(BENCH_OUTPUT_SHORT == OUTPUT_SHORT, "9");
_Static_assert(BENCH_FACTORY_IDENTIFIER == FACTORY_IDENTIFIER, "21");
_Static_assert(BENCH_LOAD_BYTES_MAX == MOST_LOAD_BYTES, "the longest load file");

/* The numbers that a call for C gives, 0 first. */
static const uint32_t NUMBERS[] = {
    BENCH_GOOD,
    BENCH_FILE_SHORT,
    BENCH_MARK_DIFFERS,
    BENCH_OUT_OF_RANGE,
    BENCH_IDENTIFIER_TAKEN,
    BENCH_BOX_TAKEN,
    BENCH_WINDOW_STEPS,
    BENCH_LIMIT_BELOW_CHAIN,
    BENCH_END_DIFFERS,
    BENCH_OUTPUT_SHORT,
    BENCH_FACTORY_IDENTIFIER,
};

enum { NUMBER_COUNT = sizeof NUMBERS / sizeof *NUMBERS };

typedef uint32_t answer_call(const uint8_t *load, size_t load_len, uint8_t *out, size_t out_len);

/* A call, and the length of its answer; 0 for the schedule, which has its own count. */
struct asked {
    const char *name;
    answer_call *bench;
    answer_call *second;
    size_t length;
};

static const struct asked CALLS[] = {
    {"bench_bound", bench_bound, second_bound, BENCH_BOUND_BYTES},
    {"bench_verdict", bench_verdict, second_verdict, BENCH_VERDICT_BYTES},
    {"bench_margins", bench_margins, second_margins, BENCH_MARGINS_BYTES},
    {"bench_schedule", bench_schedule, second_schedule, 0},
};

enum { CALL_COUNT = sizeof CALLS / sizeof *CALLS };

/* A file, and an output, each between guard bytes. */
struct lent_file {
    uint8_t bytes[GUARD + DAMAGED_MOST + GUARD];
};

struct lent_room {
    uint8_t bytes[GUARD + ROOM_MOST + GUARD];
};

/* What was compared so far, and which answer is to be altered; none where that is 0. */
struct tally {
    uint64_t answers;
    uint64_t altered;
    uint64_t by_number[BENCH_FACTORY_IDENTIFIER + 1];
    uint64_t by_version[VERSION_2 + 1]; /* answers for files that are accepted */
};

static void fill(struct dice *dice, uint8_t *bytes, size_t length)
{
    for (size_t at = 0; at < length; at++)
        bytes[at] = (uint8_t)throw_dice(dice);
}

/* What the second program gives where there is room enough: its number, and the answer; a refused
   file has no bytes. */
struct wanted {
    uint32_t number;
    size_t length;
    uint8_t bytes[BENCH_SCHEDULE_BYTES_MAX];
};

static void ask_second(const struct asked *asked, const struct damaged_file *file,
                       struct wanted *wanted)
{
    wanted->length = 0;
    wanted->number = asked->second(file->bytes, file->length, wanted->bytes, sizeof wanted->bytes);
    if (wanted->number == BENCH_GOOD && asked->length != 0)
        wanted->length = asked->length;
    else if (wanted->number == BENCH_GOOD)
        wanted->length = BENCH_SCHEDULE_BYTES((size_t)(wanted->bytes[2] | wanted->bytes[3] << 8));
}

static int tell(const struct asked *asked, const struct damaged_file *file, size_t room,
                const char *what)
{
    printf("%s, a room of %zu bytes: %s differs. The file:\n", asked->name, room, what);
    for (size_t at = 0; at < file->length; at++)
        printf("%02X%c", file->bytes[at], at % 32 == 31 || at + 1 == file->length ? '\n' : ' ');
    return DIFFERENT;
}

/* Lends the file and a room to the bench, and compares what it gave and left with what is wanted:
   9 where the room is below the answer's length, and then, as after any refusal, every byte as it
   was. */
static int compare(struct tally *tally, struct dice *dice, const struct asked *asked,
                   const struct damaged_file *file, const struct wanted *wanted, size_t room)
{
    struct lent_file load, load_before;
    struct lent_room out, out_wanted;
    size_t place = GUARD - throw_dice(dice) % 8;
    uint32_t number = room < wanted->length ? BENCH_OUTPUT_SHORT : wanted->number;
    fill(dice, load.bytes, sizeof load.bytes);
    memcpy(load.bytes + place, file->bytes, file->length);
    load_before = load;
    fill(dice, out.bytes, sizeof out.bytes);
    out_wanted = out;
    if (number == BENCH_GOOD)
        memcpy(out_wanted.bytes + place, wanted->bytes, wanted->length);
    tally->answers++;
    if (tally->answers == tally->altered)
        out_wanted.bytes[place] ^= 1;
    uint32_t given = asked->bench(load.bytes + place, file->length, out.bytes + place, room);
    if (given != number)
        return tell(asked, file, room, "the number");
    if (memcmp(&load, &load_before, sizeof load) != 0)
        return tell(asked, file, room, "the lent file, or a byte beside it,");
    if (memcmp(&out, &out_wanted, sizeof out) != 0)
        return tell(asked, file, room, "the output, or a byte beside it,");
    tally->by_number[number]++;
    if (number == BENCH_GOOD)
        tally->by_version[file->bytes[VERSION_AT]]++;
    return SAME;
}

/* Rooms: just enough, more, one byte short, none; and all there is, which a refusal leaves too. */
static int compare_rooms(struct tally *tally, struct dice *dice, const struct asked *asked,
                         const struct damaged_file *file)
{
    struct wanted wanted;
    ask_second(asked, file, &wanted);
    int found = compare(tally, dice, asked, file, &wanted, wanted.length);
    if (found == SAME)
        found = compare(tally, dice, asked, file, &wanted,
                        wanted.length + 1 + throw_dice(dice) % SPARE);
    if (found == SAME && wanted.length > 0)
        found = compare(tally, dice, asked, file, &wanted, wanted.length - 1);
    if (found == SAME && wanted.length > 1)
        found = compare(tally, dice, asked, file, &wanted, 0);
    if (found == SAME)
        found = compare(tally, dice, asked, file, &wanted, ROOM_MOST);
    return found;
}

static int compare_files(struct tally *tally, uint64_t files)
{
    struct dice dice = {0x9E3779B97F4A7C15u};
    int found = SAME;
    for (uint64_t made = 0; made < files && found == SAME; made++) {
        struct damaged_file file;
        make_file(&dice, made, &file);
        for (unsigned call = 0; call < CALL_COUNT && found == SAME; call++)
            found = compare_rooms(tally, &dice, &CALLS[call], &file);
    }
    return found;
}

/* Whether every number was met, and answers for both versions: a comparison that never meets one
   shows nothing of it. */
static bool all_met(const struct tally *tally)
{
    bool met = tally->by_version[VERSION_1] > 0 && tally->by_version[VERSION_2] > 0;
    for (unsigned at = 0; at < NUMBER_COUNT; at++)
        met = met && tally->by_number[NUMBERS[at]] > 0;
    return met;
}

int main(int count, char **words)
{
    if (count < 2 || count > 3) {
        fputs("usage: under_load FILES [ALTERED]\n", stderr);
        return CANNOT;
    }
    struct tally tally = {.altered = count == 3 ? strtoull(words[2], NULL, 10) : 0};
    uint64_t files = strtoull(words[1], NULL, 10);
    int found = compare_files(&tally, files);
    printf("under load: %" PRIu64 " files, %" PRIu64 " answers compared, by number", files,
           tally.answers);
    for (unsigned at = 0; at < NUMBER_COUNT; at++)
        printf("%s %" PRIu32 ": %" PRIu64, at > 0 ? "," : "", NUMBERS[at],
               tally.by_number[NUMBERS[at]]);
    printf("; answered of version 1: %" PRIu64 ", of version 2: %" PRIu64,
           tally.by_version[VERSION_1], tally.by_version[VERSION_2]);
    puts(found == SAME ? "; no difference" : "; a difference");
    return found == SAME && !all_met(&tally) ? CANNOT : found;
}
