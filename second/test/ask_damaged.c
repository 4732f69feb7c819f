/* Damaged load files of both versions: every refusal from 1 to 8 at every kind of record, and every
   range's ends; among those of the identifier is 21. */
#include "questions.h"

enum { MOST_RECORDS = 64, SPOILED = 260, MOST_SPOILED = 3 };

/* A record of a file: where it is, and what kind. */
struct record {
    size_t at;
    enum record_kind { HEADER, ROW, STEP, WINDOW, END } kind;
};

/* Numbers to try in a field; `at` and `width` are bytes of the record. */
struct field {
    enum record_kind kind;
    size_t at;
    size_t width;
    unsigned count;
    uint32_t numbers[11];
};

static const struct field FIELDS[] = {
    {HEADER, 2, 1, 5, {0, 1, 2, 3, 255}},
    {HEADER, 3, 1, 7, {0, 1, 2, 4, 24, 25, 255}},
    {ROW, 2, 4, 4, {0, 1, UINT32_MAX - 1, UINT32_MAX}},
    {ROW, 6, 4, 3, {0, 1, UINT32_MAX}},
    {ROW, 10, 4, 6, {0, 1, 86399, 86400, 86401, UINT32_MAX}},
    {ROW, 14, 4, 6, {0, 1, 999999, 1000000, 1000001, UINT32_MAX}},
    {ROW, 18, 1, 8, {0, 1, 2, 3, 7, 8, 9, 255}},
    {ROW, 19, 1, 7, {0, 1, 2, 3, 4, 5, 255}},
    {ROW, 20, 1, 7, {0, 1, 2, 3, 4, 128, 255}},
    {ROW, 21, 1, 5, {0, 1, 2, 3, 255}},
    {STEP, 2, 2, 7, {0, 1, 256, 599, 600, 601, 65535}},
    {STEP, 4, 2, 7, {0, 1, 256, 3599, 3600, 3601, 65535}},
    {WINDOW, 2, 1, 11, {0, 1, 2, 3, 4, 5, 6, 7, 8, 9, 255}},
    {WINDOW, 3, 1, 11, {0, 1, 2, 3, 4, 5, 6, 7, 8, 9, 255}},
    {WINDOW, 4, 2, 5, {0, 1, 256, 10000, 65535}},
    {END, 2, 2, 8, {0, 1, 3, 4, 5, 6, 256, 65535}},
};

static size_t record_bytes(const struct asked_file *file, enum record_kind kind)
{
    const size_t bytes[] = {HEADER_BYTES, row_bytes((enum version)file->bytes[2]), STEP_BYTES,
                            WINDOW_BYTES, END_BYTES};
    return bytes[kind];
}

static unsigned records_of(const struct asked_file *file, struct record *records)
{
    static const char marks[] = "LRSWE";
    unsigned count = 0;
    for (size_t at = 0; at < file->length; at += record_bytes(file, records[count++].kind)) {
        unsigned kind = 0;
        while (marks[kind] != (char)file->bytes[at])
            kind++;
        records[count] = (struct record){at, (enum record_kind)kind};
    }
    return count;
}

static void ask_field(struct asking *asking, const struct asked_file *file, size_t at,
                      const struct field *field)
{
    for (unsigned place = 0; place < field->count; place++) {
        struct asked_file damaged = *file;
        uint32_t number = field->numbers[place];
        for (size_t byte = 0; byte < field->width; byte++, number >>= 8)
            damaged.bytes[at + field->at + byte] = (uint8_t)(number & 0xFF);
        ask_report(asking, &damaged);
    }
}

/* Class and head stand in rows of version 2 alone. */
static void ask_fields(struct asking *asking, const struct asked_file *file)
{
    struct record records[MOST_RECORDS];
    unsigned count = records_of(file, records);
    for (unsigned place = 0; place < count; place++)
        for (size_t field = 0; field < sizeof FIELDS / sizeof FIELDS[0]; field++)
            if (FIELDS[field].kind == records[place].kind
                && FIELDS[field].at < record_bytes(file, records[place].kind))
                ask_field(asking, file, records[place].at, &FIELDS[field]);
}

static void ask_cut(struct asking *asking, struct asked_file file, size_t length)
{
    file.length = length;
    ask_report(asking, &file);
}

/* A faulty record that is also short, or after which the file ends: 1, 2 and 3 in turn. */
static void ask_faulty_and_short(struct asking *asking, const struct asked_file *file)
{
    struct record records[MOST_RECORDS];
    unsigned count = records_of(file, records);
    for (unsigned place = 0; place < count; place++) {
        struct asked_file damaged = *file;
        size_t end = records[place].at + record_bytes(file, records[place].kind);
        for (size_t at = records[place].at + 2; at < end; at++)
            damaged.bytes[at] = 0xFF;
        ask_cut(asking, damaged, end - 1);
        ask_cut(asking, damaged, end);
        damaged.bytes[records[place].at + 1] ^= 1;
        ask_cut(asking, damaged, end - 1);
        ask_cut(asking, damaged, end);
    }
}

static void ask_every_cut(struct asking *asking, const struct asked_file *file)
{
    for (size_t length = 0; length < file->length; length++)
        ask_cut(asking, *file, length);
}

static void ask_every_byte(struct asking *asking, const struct asked_file *file)
{
    static const uint8_t changes[] = {0x01, 0x80, 0xFF};
    for (size_t at = 0; at < file->length; at++)
        for (size_t change = 0; change < sizeof changes; change++) {
            struct asked_file damaged = *file;
            damaged.bytes[at] ^= changes[change];
            ask_report(asking, &damaged);
        }
}

/* Bytes that follow, alone and with another fault at the end record. */
static void ask_longer(struct asking *asking, const struct asked_file *file)
{
    static const size_t more[] = {1, 2, 4, 20, 200};
    for (size_t place = 0; place < sizeof more / sizeof more[0]; place++) {
        struct asked_file longer = *file;
        longer.length += more[place];
        ask_report(asking, &longer);
        longer.bytes[file->length - 2] ^= 1;
        ask_report(asking, &longer);
        longer.bytes[file->length - 4] ^= 1;
        ask_report(asking, &longer);
    }
    struct asked_file longest = *file;
    longest.length = MOST_ASKED_BYTES;
    ask_report(asking, &longest);
    for (size_t at = 0; at < file->length; at++)
        longest.bytes[file->length + at] = file->bytes[at];
    longest.length = 2 * file->length;
    ask_report(asking, &longest);
}

/* Now and then there is a changed byte or a lost end besides. */
struct asked_file spoiled_file(struct dice *dice, unsigned times)
{
    struct load load = any_load(dice, SMALL_SIZES);
    for (uint32_t faults = between(dice, 1, MOST_SPOILED); faults > 0; faults--)
        spoil(dice, &load);
    struct asked_file file = file_of(&load);
    size_t at = throw_dice(dice) % file.length;
    if (times % 4 == 0)
        file.bytes[at] = (uint8_t)throw_dice(dice);
    if (times % 4 == 1)
        file.length = at;
    return file;
}

static void ask_spoiled(struct asking *asking)
{
    for (unsigned times = 0; times < SPOILED; times++) {
        struct asked_file file = spoiled_file(&asking->dice, times);
        ask_report(asking, &file);
    }
}

void ask_damaged_files(struct asking *asking)
{
    struct load small = load_with(&asking->dice, 3, 2, 1);
    struct load wide = load_with(&asking->dice, 2, MOST_STEPS, MOST_WINDOWS);
    struct load middle = load_with(&asking->dice, 2, 5, 2);
    struct load urgent = load_with(&asking->dice, 2, 2, 1);
    set_classes(&asking->dice, &urgent);
    struct asked_file files[] = {file_of(&small), file_of(&wide), file_of(&middle),
                                 file_in(VERSION_2, &urgent)};
    for (unsigned place = 0; place < 4; place++)
        ask_fields(asking, &files[place]);
    for (unsigned place = 0; place < 4; place += 3)
        ask_every_byte(asking, &files[place]);
    for (unsigned place = 0; place < 4; place += place == 0 ? 2 : 1) {
        ask_every_cut(asking, &files[place]);
        ask_faulty_and_short(asking, &files[place]);
    }
    ask_longer(asking, &files[0]);
    ask_longer(asking, &files[3]);
    ask_spoiled(asking);
}
