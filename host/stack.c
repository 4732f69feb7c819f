/* Measures the stack that each call for C takes, and holds it against what the header says.
 *
 * usage: stack DEEPER FILE...      DEEPER is 0, or so many bytes of stack that are taken on the way
 *                                  to each call: with enough of them it must fail
 *
 * A call runs on a stack of its own that is painted all over; the deepest byte that has changed
 * afterwards tells what was taken, from the call's return address down. It runs twice, on two
 * paints: a byte that is written in the colour of one is seen on the other.
 *
 * Exit status: 0 where no call takes more than the header says, 1 where one does, 2 where it cannot
 * be measured. */
#define _XOPEN_SOURCE 700 /* for makecontext */

#include <stdbool.h>
#include <stdio.h>
#include <stdlib.h>
#include <string.h>
#include <ucontext.h>

#include "reading_bench.h"

enum { WITHIN = 0, BEYOND = 1, CANNOT = 2 };
enum { STACK_BYTES = 1 << 17, KNOWN_BYTES = 5000, KNOWN_MORE = 128 };

typedef uint32_t answer_call(const uint8_t *load, size_t load_len, uint8_t *out, size_t out_len);

/* A call, what the header says of it, and the most that it took so far, with the file. */
struct measured {
    const char *name;
    answer_call *call;
    size_t said;
    size_t taken;
    const char *file;
};

/* One byte more than the longest load file. */
struct load_file {
    size_t length;
    uint8_t bytes[BENCH_LOAD_BYTES_MAX + 1];
};

static _Alignas(64) uint8_t painted[STACK_BYTES];
static const uint8_t COLOURS[] = {0x5A, 0xA5};

/* What runs on the painted stack, and what it leaves: a context can be handed none of these. */
static answer_call *run_call;
static const struct load_file *run_file;
static uint8_t run_out[BENCH_SCHEDULE_BYTES_MAX];
static const uint8_t *call_top; /* one past the return address of a call that runs there */
static ucontext_t outside, inside;

static answer_call *deeper_call;
static size_t deeper_bytes;

/* Finds where a call begins: above its frame address stand the caller's and the return address. */
static uint32_t find_top(const uint8_t *load, size_t load_len, uint8_t *out, size_t out_len)
{
    (void)load, (void)load_len, (void)out, (void)out_len;
    call_top = (const uint8_t *)__builtin_frame_address(0) + 2 * sizeof(void *);
    return BENCH_GOOD;
}

/* Writes so many bytes of stack, and calls on. */
static uint32_t take_deeper(const uint8_t *load, size_t load_len, uint8_t *out, size_t out_len)
{
    volatile uint8_t taken[deeper_bytes + 1];
    for (size_t at = 0; at <= deeper_bytes; at++)
        taken[at] = 0;
    return deeper_call(load, load_len, out, out_len) + taken[deeper_bytes];
}

static uint32_t give_good(const uint8_t *load, size_t load_len, uint8_t *out, size_t out_len)
{
    (void)load, (void)load_len, (void)out, (void)out_len;
    return BENCH_GOOD;
}

static void run_inside(void)
{
    run_call(run_file->bytes, run_file->length, run_out, sizeof run_out);
}

static bool run_painted(answer_call *call, const struct load_file *file, uint8_t colour)
{
    memset(painted, colour, sizeof painted);
    run_call = call;
    run_file = file;
    if (getcontext(&inside) != 0)
        return false;
    inside.uc_stack.ss_sp = painted;
    inside.uc_stack.ss_size = sizeof painted;
    inside.uc_link = &outside;
    makecontext(&inside, run_inside, 0);
    return swapcontext(&outside, &inside) == 0;
}

/* The bytes of stack that the call takes; 0 where that cannot be measured. */
static size_t taken_by(answer_call *call, const struct load_file *file)
{
    const uint8_t *deepest = painted + sizeof painted;
    if (!run_painted(find_top, file, COLOURS[0]))
        return 0;
    for (size_t paint = 0; paint < sizeof COLOURS; paint++) {
        const uint8_t *at = painted;
        if (!run_painted(call, file, COLOURS[paint]))
            return 0;
        while (at < deepest && *at == COLOURS[paint])
            at++;
        deepest = at;
    }
    return deepest == painted || deepest >= call_top ? 0 : (size_t)(call_top - deepest);
}

/* Whether a call of known depth is measured as that, and little more. */
static bool measures_known(void)
{
    static const struct load_file none;
    deeper_call = give_good;
    deeper_bytes = KNOWN_BYTES;
    size_t taken = taken_by(take_deeper, &none);
    return taken >= KNOWN_BYTES && taken <= KNOWN_BYTES + KNOWN_MORE;
}

static bool read_file(const char *path, struct load_file *file)
{
    FILE *from = fopen(path, "rb");
    if (from == NULL)
        return false;
    file->length = fread(file->bytes, 1, sizeof file->bytes, from);
    bool is_read = ferror(from) == 0;
    fclose(from);
    return is_read;
}

/* Measures the call on a file; where that cannot be done, it is told. */
static bool measure(struct measured *measured, const char *path, size_t deeper)
{
    static struct load_file file;
    if (!read_file(path, &file)) {
        fprintf(stderr, "stack: %s: cannot be read\n", path);
        return false;
    }
    deeper_call = measured->call;
    deeper_bytes = deeper;
    size_t taken = taken_by(deeper == 0 ? measured->call : take_deeper, &file);
    if (taken > measured->taken) {
        measured->taken = taken;
        measured->file = path;
    }
    if (taken == 0)
        fprintf(stderr, "stack: %s: %s cannot be measured\n", path, measured->name);
    return taken != 0;
}

static int tell(const struct measured *measured)
{
    const char *slash = strrchr(measured->file, '/');
    printf("| `%s` | %zu | %s | %zu |\n", measured->name, measured->taken,
           slash == NULL ? measured->file : slash + 1, measured->said);
    if (measured->taken <= measured->said)
        return WITHIN;
    fprintf(stderr, "stack: %s takes %zu bytes, and the header says %zu\n", measured->name,
            measured->taken, measured->said);
    return BEYOND;
}

int main(int count, char **words)
{
    struct measured calls[] = {
        {"bench_bound", bench_bound, BENCH_BOUND_STACK, 0, ""},
        {"bench_verdict", bench_verdict, BENCH_VERDICT_STACK, 0, ""},
        {"bench_margins", bench_margins, BENCH_MARGINS_STACK, 0, ""},
        {"bench_schedule", bench_schedule, BENCH_SCHEDULE_STACK, 0, ""},
    };
    int found = WITHIN;
    if (count < 3 || !measures_known()) {
        fputs(count < 3 ? "usage: stack DEEPER FILE...\n" : "stack: it measures wrongly\n", stderr);
        return CANNOT;
    }
    puts("| Call | Stack, bytes | Most on | The header says |\n|---|---|---|---|");
    for (size_t call = 0; call < sizeof calls / sizeof *calls; call++) {
        for (int at = 2; at < count; at++)
            if (!measure(&calls[call], words[at], strtoull(words[1], NULL, 10)))
                return CANNOT;
        found |= tell(&calls[call]);
    }
    return found;
}
