#include "damaged_file.h"

#include <string.h>

#include "bound.h"

/* Of random_load.h's sizes the first 8 are quick to run. */
enum { QUICK = 8, SOUND_EVERY = 4, SLOW_EVERY = 100, FULL_EVERY = 1000, EMPTY_AT = 500 };
enum { URGENT_EVERY = 3 };

/* Classes for one load of three; the others have class 0 throughout, and fit either version. */
static void set_some_classes(struct dice *dice, struct load *load)
{
    if (throw_dice(dice) % URGENT_EVERY == 0)
        set_classes(dice, load);
}

/* A load that is not refused, its deadlines on either side of its row bounds. */
static struct load sound_load(struct dice *dice, unsigned sizes)
{
    uint32_t bounds[MOST_ROWS];
    struct load load = any_load(dice, sizes);
    if (row_bounds_of(&load, bounds) == ACCEPTED)
        set_deadlines(dice, &load, bounds);
    set_some_classes(dice, &load);
    return load;
}

/* 24 rows of 8 steps with small costs and waits. */
static struct load full_load(struct dice *dice)
{
    struct load load = {.row_count = MOST_ROWS};
    for (unsigned row = 0; row < MOST_ROWS; row++) {
        load.rows[row] = (struct row){.identifier = {row + 1},
                                      .box = {row + 1},
                                      .deadline = MOST_DEADLINE,
                                      .step_count = MOST_STEPS,
                                      .head = ONLY_HEAD};
        for (unsigned step = 0; step < MOST_STEPS; step++) {
            load.rows[row].steps[step].cost = (uint16_t)(1 + throw_dice(dice) % 9);
            if (step + 1 < MOST_STEPS)
                load.rows[row].steps[step].wait = (uint16_t)(throw_dice(dice) % 40);
        }
    }
    set_some_classes(dice, &load);
    return load;
}

/* In version 2, or in version 1 where that carries all of the load: one as often as the other. */
static void put_file(struct dice *dice, const struct load *load, struct damaged_file *file)
{
    bool lowest = throw_dice(dice) % 2 == 0;
    uint8_t *end = lowest ? put_load(file->bytes, load)
                          : put_load_in(file->bytes, VERSION_2, load);
    file->length = (size_t)(end - file->bytes);
}

static size_t any_place(struct dice *dice, const struct damaged_file *file)
{
    return throw_dice(dice) % file->length;
}

/* Where a record begins that has this mark, from some place on; the header where there is none. */
static size_t any_record(struct dice *dice, const struct damaged_file *file, const char *mark)
{
    for (size_t at = any_place(dice, file); at + 1 < file->length; at++)
        if (memcmp(file->bytes + at, mark, 2) == 0)
            return at;
    return 0;
}

static void cut_short(struct dice *dice, struct damaged_file *file)
{
    file->length = any_place(dice, file);
}

static void alter_byte(struct dice *dice, struct damaged_file *file)
{
    size_t at = any_place(dice, file);
    file->bytes[at] = (uint8_t)(file->bytes[at] + 1 + throw_dice(dice) % 255);
}

static void append(struct dice *dice, struct damaged_file *file)
{
    for (uint32_t left = 1 + throw_dice(dice) % 4; left > 0; left--)
        file->bytes[file->length++] = (uint8_t)throw_dice(dice);
}

static void alter_mark(struct dice *dice, struct damaged_file *file)
{
    size_t at = any_record(dice, file, "ST");
    file->bytes[at + throw_dice(dice) % 2] = (uint8_t)throw_dice(dice);
}

static void alter_version(struct dice *dice, struct damaged_file *file)
{
    file->bytes[VERSION_AT] = (uint8_t)(throw_dice(dice) % (VERSION_2 + 2));
}

static void alter_row_count(struct dice *dice, struct damaged_file *file)
{
    file->bytes[3] = (uint8_t)(throw_dice(dice) % 27);
}

static void alter_part_count(struct dice *dice, struct damaged_file *file)
{
    size_t at = any_record(dice, file, "RW") + ROW_BYTES - 2 + throw_dice(dice) % 2;
    if (at < file->length)
        file->bytes[at] = (uint8_t)(throw_dice(dice) % 10);
}

/* In a file of version 1 a byte of the first step's mark stands there. */
static void alter_class_or_head(struct dice *dice, struct damaged_file *file)
{
    size_t at = any_record(dice, file, "RW") + ROW_BYTES;
    at += throw_dice(dice) % CLASS_AND_HEAD_BYTES;
    if (at < file->length)
        file->bytes[at] = (uint8_t)(throw_dice(dice) % (MOST_CLASS + 3));
}

static void alter_end_count(struct dice *dice, struct damaged_file *file)
{
    file->bytes[file->length - 2] = (uint8_t)throw_dice(dice);
}

static void factory_identifier(struct dice *dice, struct damaged_file *file)
{
    size_t at = any_record(dice, file, "RW") + 2;
    if (at + sizeof(uint32_t) <= file->length)
        memset(file->bytes + at, UINT8_MAX, sizeof(uint32_t));
}

typedef void damage(struct dice *dice, struct damaged_file *file);

static damage *const DAMAGES[] = {cut_short,        alter_byte,          append,
                                  alter_mark,       alter_version,       alter_row_count,
                                  alter_part_count, alter_class_or_head, alter_end_count,
                                  factory_identifier};

enum { DAMAGE_COUNT = sizeof DAMAGES / sizeof *DAMAGES, SPOILED = DAMAGE_COUNT };

static void make_damaged(struct dice *dice, struct damaged_file *file)
{
    struct load load = sound_load(dice, QUICK);
    unsigned way = throw_dice(dice) % (2 * DAMAGE_COUNT);
    if (way >= SPOILED)
        spoil(dice, &load);
    put_file(dice, &load, file);
    if (way < SPOILED)
        DAMAGES[way](dice, file);
}

static struct load sound_at(struct dice *dice, uint64_t turn)
{
    if (turn % FULL_EVERY == 0)
        return full_load(dice);
    if (turn % FULL_EVERY == EMPTY_AT)
        return (struct load){0};
    return sound_load(dice, turn % SLOW_EVERY == 0 ? ALL_SIZES : QUICK);
}

void make_file(struct dice *dice, uint64_t turn, struct damaged_file *file)
{
    if (turn % SOUND_EVERY == 0) {
        struct load load = sound_at(dice, turn);
        put_file(dice, &load, file);
    } else {
        make_damaged(dice, file);
    }
}
