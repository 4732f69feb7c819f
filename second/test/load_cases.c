/* Load files and loads in memory: 1 to 9; 21 in factory_cases.c, version 2 in version_cases.c. */
#include <string.h>

#include "cases.h"
#include "load_file.h"

struct file {
    size_t length;
    uint8_t bytes[MOST_LOAD_BYTES + 1];
};

static struct file file_of(const struct load *load)
{
    struct file file = {0};
    file.length = (size_t)(put_load(file.bytes, load) - file.bytes);
    return file;
}

static long reading(const struct file *file)
{
    struct load load;
    return read_load(file->bytes, file->length, &load);
}

static long reading_of_load(struct load load)
{
    struct file file = file_of(&load);
    return reading(&file);
}

static long reading_with_byte(size_t at, uint8_t byte)
{
    struct load load = load_b();
    struct file file = file_of(&load);
    file.bytes[at < file.length ? at : file.length - 1] = byte;
    return reading(&file);
}

static long reading_first(size_t length)
{
    struct load load = load_b();
    struct file file = file_of(&load);
    file.length = length;
    return reading(&file);
}

/* Load B's file: header at 0, row 1 at 4, its steps at 24 and 30, its window at 36, row 2 at 42,
   its step at 62, row 3 at 68, steps at 88 and 94, window at 100, end at 106, length 110. */
static void file_cases(struct tally *tally)
{
    same(tally, "B read", 0, reading_first(110));
    for (size_t length = 0; length < 110; length++)
        same(tally, "cut short", 1, reading_first(length));
    same(tally, "header mark", 2, reading_with_byte(0, 0x4D));
    same(tally, "version 3", 2, reading_with_byte(2, 3));
    same(tally, "25 rows in the header", 3, reading_with_byte(3, 25));
    same(tally, "one row too many: 20 bytes due where 4 are left", 1, reading_with_byte(3, 4));
    same(tally, "one row too few: a row's mark where the end is due", 2, reading_with_byte(3, 2));
    same(tally, "row mark", 2, reading_with_byte(5, 0));
    same(tally, "step mark", 2, reading_with_byte(24, 0));
    same(tally, "window mark", 2, reading_with_byte(36, 0));
    same(tally, "end mark", 2, reading_with_byte(106, 0));
    same(tally, "end count", 8, reading_with_byte(108, 6));
    same(tally, "end count, high byte", 8, reading_with_byte(109, 1));
    same(tally, "one step too many: a window where a step is due", 2, reading_with_byte(22, 3));
    same(tally, "window steps 9 and more", 6, reading_with_byte(39, 9));
    same(tally, "window steps 255", 6, reading_with_byte(38, 255));
    same(tally, "window from 0", 3, reading_with_byte(38, 0));
    struct load load = load_b();
    struct file file = file_of(&load);
    file.bytes[2] = 3;
    file.bytes[3] = 25;
    same(tally, "version and row count", 2, reading(&file));
    file = file_of(&load);
    file.length++;
    same(tally, "a byte follows", 8, reading(&file));
}

/* Each line spoils one place; file and memory must give the same number. */
#define SPOILED(number, place) \
    do { \
        struct load l = base; \
        place; \
        same(tally, "in memory: " #place, number, check_load(&l)); \
        same(tally, "in a file: " #place, number, reading_of_load(l)); \
    } while (0)

static void row_cases(struct tally *tally)
{
    struct load base = load_b();
    SPOILED(0, (void)l);
    SPOILED(3, l.rows[0].identifier.number = 0);
    SPOILED(0, l.rows[0].identifier.number = UINT32_MAX - 1);
    SPOILED(21, l.rows[0].identifier.number = UINT32_MAX);
    SPOILED(3, l.rows[0].box.number = 0);
    SPOILED(0, l.rows[0].box.number = UINT32_MAX);
    SPOILED(0, l.rows[0].phase = 86400);
    SPOILED(3, l.rows[0].phase = 86401);
    SPOILED(3, l.rows[0].deadline = 0);
    SPOILED(0, l.rows[0].deadline = 1);
    SPOILED(3, l.rows[0].deadline = 1000001);
    SPOILED(4, l.rows[1].identifier.number = 101);
    SPOILED(5, l.rows[1].box.number = 201);
    SPOILED(4, (l.rows[2].identifier.number = 102, l.rows[2].box.number = 201));
    SPOILED(0, l.rows[1].identifier.number = 201);
    SPOILED(3, (l.rows[1].identifier.number = 101, l.rows[1].deadline = 0));
    SPOILED(5, (l.rows[1].box.number = 201, l.rows[1].steps[0].cost = 0));
    SPOILED(7, (l.rows[0].windows[0].limit = 7, l.rows[1].identifier.number = 101));
    SPOILED(3, l.rows[0].steps[0].cost = 0);
    SPOILED(0, l.rows[1].steps[0].cost = 600);
    SPOILED(3, l.rows[1].steps[0].cost = 601);
    SPOILED(3, l.rows[1].steps[0].wait = 1);
    SPOILED(3, l.rows[0].steps[0].wait = 3601);
}

static void window_cases(struct tally *tally)
{
    struct load base = load_two_windows();
    SPOILED(0, (void)l);
    SPOILED(3, l.rows[0].windows[0].first = 0);
    SPOILED(3, (l.rows[0].windows[0].last = 0));
    SPOILED(3, (l.rows[0].windows[1].last = 9, l.rows[0].windows[1].limit = 0));
    SPOILED(6, l.rows[0].windows[0].first = 2);
    SPOILED(6, l.rows[0].windows[0].first = 3);
    SPOILED(6, l.rows[0].windows[1].last = 5);
    SPOILED(6, l.rows[0].windows[1].first = 2);
    SPOILED(6, (l.rows[0].windows[1].first = 1, l.rows[0].windows[1].last = 2));
    SPOILED(6, (l.rows[0].windows[1].first = 2, l.rows[0].windows[1].limit = 1));
    SPOILED(7, l.rows[0].windows[0].limit = 3);
    SPOILED(0, l.rows[0].windows[1].limit = 5);
    SPOILED(7, l.rows[0].windows[1].limit = 4);
    SPOILED(0, l.rows[0].windows[1].limit = UINT16_MAX);
    SPOILED(6, (l.rows[0].window_count = 3, l.rows[0].windows[2] = (struct window){4, 5, 9}));
}

#define IN_MEMORY(number, place) \
    do { \
        struct load l = base; \
        place; \
        same(tally, "in memory: " #place, number, check_load(&l)); \
    } while (0)

/* The unused places of a list come after its used ones, and a row before the next. */
static void unused_cases(struct tally *tally)
{
    struct load base = load_b();
    IN_MEMORY(3, l.row_count = 25);
    IN_MEMORY(3, l.rows[0].step_count = 0);
    IN_MEMORY(3, l.rows[0].step_count = 9);
    IN_MEMORY(3, l.rows[0].window_count = 5);
    IN_MEMORY(3, l.rows[0].steps[7].cost = 1);
    IN_MEMORY(3, l.rows[0].steps[2].wait = 1);
    IN_MEMORY(3, l.rows[0].windows[1].first = 1);
    IN_MEMORY(3, l.rows[0].windows[3].limit = 1);
    IN_MEMORY(3, l.rows[3].identifier.number = 1);
    IN_MEMORY(3, l.rows[23].windows[3].last = 1);
    IN_MEMORY(3, l.rows[23].steps[0].wait = 1);
    IN_MEMORY(3, (l.rows[0].steps[7].cost = 1, l.rows[0].windows[0].limit = 7));
    IN_MEMORY(7, (l.rows[0].windows[3].first = 1, l.rows[0].windows[0].limit = 7));
    IN_MEMORY(3, (l.rows[0].windows[3].first = 1, l.rows[1].identifier.number = 101));
    IN_MEMORY(4, (l.rows[3].phase = 1, l.rows[1].identifier.number = 101));
    IN_MEMORY(3, l.row_count = 2);
}

static void writing_cases(struct tally *tally)
{
    struct load load = load_b();
    uint8_t bytes[120];
    size_t written;
    memset(bytes, 0xAA, sizeof bytes);
    same(tally, "room 109", 9, write_version_1(&load, bytes, 109, &written));
    same(tally, "room 109: nothing written", 0xAA, bytes[0]);
    same(tally, "room 110", 0, write_version_1(&load, bytes, 110, &written));
    same(tally, "room 120", 0, write_version_1(&load, bytes, 120, &written));
    same(tally, "length", 110, (long)written);
    same(tally, "bytes past the file stay", 0xAA, bytes[110]);
    load.rows[0].windows[0].limit = 7;
    same(tally, "7 before 9", 7, write_version_1(&load, bytes, 0, &written));
}

void load_cases(struct tally *tally)
{
    file_cases(tally);
    row_cases(tally);
    window_cases(tally);
    unused_cases(tally);
    writing_cases(tally);
}
