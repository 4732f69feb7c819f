#include "file_fault.h"

#include <string.h>

#include "load_file.h"
#include "plain.h"

enum { PERTURBED = 20 };

/* Writing and reading give the load again, byte for byte; version 2 has two bytes more a row. */
static bool is_read_as_written(const struct load *load)
{
    uint8_t bytes[MOST_LOAD_BYTES], again[MOST_LOAD_BYTES];
    size_t length, length_again;
    struct load read;
    return write_version_2(load, bytes, sizeof bytes, &length) == ACCEPTED
        && length == load_bytes(load, VERSION_1) + CLASS_AND_HEAD_BYTES * (size_t)load->row_count
        && read_load(bytes, length, &read) == ACCEPTED
        && write_version_2(&read, again, sizeof again, &length_again) == ACCEPTED
        && length == length_again && memcmp(bytes, again, length) == 0;
}

static bool is_refused_in_version_1(const struct load *load)
{
    uint8_t bytes[MOST_LOAD_BYTES];
    size_t length;
    return write_version_1(load, bytes, sizeof bytes, &length) == NOT_CARRIED && length == 0;
}

/* Without its classes: from version 1 to version 2 and back the bytes stay. */
static bool is_moved_and_back(struct load load)
{
    uint8_t bytes[MOST_LOAD_BYTES], moved[MOST_LOAD_BYTES], back[MOST_LOAD_BYTES];
    size_t length, moved_length, back_length;
    struct load read;
    for (unsigned row = 1; row <= load.row_count; row++)
        load.rows[row - 1].class = 0;
    return write_version_1(&load, bytes, sizeof bytes, &length) == ACCEPTED
        && read_load(bytes, length, &read) == ACCEPTED
        && write_version_2(&read, moved, sizeof moved, &moved_length) == ACCEPTED
        && read_load(moved, moved_length, &read) == ACCEPTED
        && write_version_1(&read, back, sizeof back, &back_length) == ACCEPTED
        && length == back_length && memcmp(bytes, back, length) == 0;
}

/* A file and a load in memory put the same questions in the same order. */
static bool is_refused_as_load(struct dice *dice, const struct load *load)
{
    struct load spoiled = *load, read;
    uint8_t bytes[MOST_LOAD_BYTES];
    bool same = true;
    for (unsigned times = 0; same && times < PERTURBED; times++) {
        spoil(dice, &spoiled);
        size_t length = (size_t)(put_load(bytes, &spoiled) - bytes);
        same = read_load(bytes, length, &read) == check_load(&spoiled);
    }
    return same;
}

static bool is_number_of_file(enum refusal refusal)
{
    return refusal <= END_DIFFERS || refusal == FACTORY_IDENTIFIER;
}

/* Any bytes are read to an end; the sanitized build watches the places. */
static bool are_any_bytes_read(struct dice *dice, const struct load *load)
{
    struct load read;
    uint8_t bytes[MOST_LOAD_BYTES];
    size_t length = (size_t)(put_load(bytes, load) - bytes);
    bool good = true;
    for (unsigned times = 0; good && times < PERTURBED; times++) {
        size_t spoiled = throw_dice(dice) % length;
        bytes[spoiled] = (uint8_t)throw_dice(dice);
        size_t part = times % 2 ? length : throw_dice(dice) % length;
        enum refusal refusal = read_load(bytes, part, &read);
        good = is_number_of_file(refusal)
            && (refusal != ACCEPTED || check_load(&read) == ACCEPTED);
    }
    return good;
}

const char *file_fault(struct dice *dice, const struct load *load)
{
    if (!is_read_as_written(load))
        return "read as written";
    if (!is_plain(load) && !is_refused_in_version_1(load))
        return "a class is not lost";
    if (!is_moved_and_back(*load))
        return "moved to version 2 and back";
    if (!is_refused_as_load(dice, load))
        return "a spoiled file is refused as the load is";
    if (!are_any_bytes_read(dice, load))
        return "any bytes are read";
    return NULL;
}
