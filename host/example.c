/* A host of the reading bench: reads a load file and says in plain words what the bench gives.
 *
 * usage: example [FILE]      without FILE, or where FILE is -, it reads standard input
 *        example --help
 *
 * Exit status: 0 where the file is accepted, 1 where it is refused, 2 for a wrong use, 3 where the
 * file cannot be read, 4 where what it says cannot be written. For 2, 3 and 4 a line on standard
 * error says what went wrong. */
#include <errno.h>
#include <inttypes.h>
#include <stdbool.h>
#include <stdio.h>
#include <string.h>

#include "reading_bench.h"

enum { ACCEPTED = 0, REFUSED = 1, WRONG_USE = 2, NOT_READ = 3, NOT_WRITTEN = 4 };
enum { HEADER_BYTES = 4, SLOT_BYTES = 8 };

static const char HELP[] =
    "usage: example [FILE]\n"
    "Says what the reading bench gives for a load file. Without FILE, or where FILE is -, it\n"
    "reads standard input.\n"
    "Exit status: 0 accepted, 1 refused, 2 wrong use, 3 not read, 4 not written.\n";

/* One byte more than the longest load file: a file that fills it all is refused like any other that
   is too long. */
struct load_file {
    size_t length;
    uint8_t bytes[BENCH_LOAD_BYTES_MAX + 1];
};

struct answers {
    uint8_t bound[BENCH_BOUND_BYTES];
    uint8_t verdict[BENCH_VERDICT_BYTES];
    uint8_t margins[BENCH_MARGINS_BYTES];
    uint8_t schedule[BENCH_SCHEDULE_BYTES_MAX];
};

static uint32_t number_at(const uint8_t *bytes, unsigned width)
{
    uint32_t number = 0;
    for (unsigned at = width; at > 0; at--)
        number = number << 8 | bytes[at - 1];
    return number;
}

/* Two's complement, read without a cast that would hang on the machine. */
static int32_t margin_at(const uint8_t *bytes)
{
    uint32_t word = number_at(bytes, 4);
    return word <= INT32_MAX ? (int32_t)word : -(int32_t)(UINT32_MAX - word) - 1;
}

/* Numbers that no call for C gives have no words. */
static const char *reason_of(uint32_t number)
{
    static const char *const reasons[] = {
        [BENCH_FILE_SHORT] = "it ends before or inside a record that is due",
        [BENCH_MARK_DIFFERS] = "a mark differs, or the version is not 1 or 2",
        [BENCH_OUT_OF_RANGE] = "a number is outside its range",
        [BENCH_IDENTIFIER_TAKEN] = "an identifier stands in an earlier row",
        [BENCH_BOX_TAKEN] = "a box stands in an earlier row",
        [BENCH_WINDOW_STEPS] = "a window's steps are not there, or not in order",
        [BENCH_LIMIT_BELOW_CHAIN] = "a window's limit is below its chain",
        [BENCH_END_DIFFERS] = "the end count is wrong, or bytes follow",
        [BENCH_OUTPUT_SHORT] = "the output is too short",
        [BENCH_FACTORY_IDENTIFIER] = "an identifier is 4,294,967,295, which is the factory's",
    };
    const char *reason = number < sizeof reasons / sizeof *reasons ? reasons[number] : NULL;
    return reason != NULL ? reason : "no such number";
}

/* What the file is refused for, or 0 and every answer. */
static uint32_t ask_bench(const struct load_file *file, struct answers *answers)
{
    const uint8_t *load = file->bytes;
    uint32_t number = bench_bound(load, file->length, answers->bound, sizeof answers->bound);
    if (number == BENCH_GOOD)
        number = bench_verdict(load, file->length, answers->verdict, sizeof answers->verdict);
    if (number == BENCH_GOOD)
        number = bench_margins(load, file->length, answers->margins, sizeof answers->margins);
    if (number == BENCH_GOOD)
        number = bench_schedule(load, file->length, answers->schedule, sizeof answers->schedule);
    return number;
}

static void show_margin(unsigned row, int32_t margin)
{
    if (margin < 0)
        printf("Row %u may end up to %" PRId32 " after its deadline.\n", row, -margin);
    else
        printf("Row %u ends by its deadline, at least %" PRId32 " before it.\n", row, margin);
}

static void show_starts(const uint8_t *schedule)
{
    const uint8_t *slot = schedule + HEADER_BYTES;
    for (uint32_t left = number_at(schedule + 2, 2); left > 0; left--, slot += SLOT_BYTES)
        printf("At %" PRIu32 " row %u starts step %u.\n", number_at(slot + 4, 4), slot[2], slot[3]);
}

/* The file was accepted, so its fourth byte is the number of rows. */
static void show_answers(const struct load_file *file, const struct answers *answers)
{
    unsigned rows = file->bytes[3];
    printf("Rows: %u. All steps are over by %" PRIu32 ".\n", rows, number_at(answers->bound, 4));
    for (unsigned row = 1; row <= rows; row++)
        show_margin(row, margin_at(answers->margins + 4 * (row - 1)));
    printf("The verdict is %s.\n", answers->verdict[0] == 1 ? "yes" : "no");
    show_starts(answers->schedule);
}

/* Reads FILE, and closes it; whether that could be done. Where not, `errno` says why. */
static bool read_file(const char *name, struct load_file *file)
{
    bool is_input = strcmp(name, "-") == 0;
    FILE *from = is_input ? stdin : fopen(name, "rb");
    if (from == NULL)
        return false;
    file->length = fread(file->bytes, 1, sizeof file->bytes, from);
    bool is_read = ferror(from) == 0;
    int why = errno;
    if (!is_input)
        fclose(from);
    errno = why;
    return is_read;
}

/* Says what the bench gives for the file. */
static int answer(const struct load_file *file)
{
    struct answers answers;
    uint32_t number = ask_bench(file, &answers);
    if (number != BENCH_GOOD) {
        printf("The load file is refused with %" PRIu32 ": %s.\n", number, reason_of(number));
        return REFUSED;
    }
    show_answers(file, &answers);
    return ACCEPTED;
}

/* Ends with the status given, or with that of an output which cannot be written. What was printed
   may wait in memory until here, so that no print before could tell. */
static int finish(int status)
{
    if (fflush(stdout) == 0 && ferror(stdout) == 0)
        return status;
    fprintf(stderr, "example: standard output: cannot be written: %s\n", strerror(errno));
    return NOT_WRITTEN;
}

int main(int count, char **words)
{
    struct load_file file;
    const char *name = count == 2 ? words[1] : "-";
    if (count == 2 && strcmp(name, "--help") == 0) {
        fputs(HELP, stdout);
        return finish(ACCEPTED);
    }
    if (count > 2 || (name[0] == '-' && name[1] != '\0')) {
        fputs("example: wrong use; it is example [FILE], or example --help\n", stderr);
        return WRONG_USE;
    }
    if (!read_file(name, &file)) {
        fprintf(stderr, "example: %s: cannot be read: %s\n",
                strcmp(name, "-") == 0 ? "standard input" : name, strerror(errno));
        return NOT_READ;
    }
    return finish(answer(&file));
}
