/* Load files of version 2 (2026-05): their bytes, what is read of both versions, what other
   versions get, and the way from version 1 to version 2 and back. */
#include <string.h>

#include "calls.h"
#include "cases.h"
#include "load_file.h"

enum { A_BYTES = 110, A_BYTES_1 = 104, STAYS = 0xAA };

/* A in version 2: rows at 4, 38 and 72, each with class and head at its 20 and 21; steps at 26 and
   32, 60 and 66, 94 and 100; end at 106. */
static const uint8_t FILE_OF_A[A_BYTES] = {
    0x4C, 0x44, 2, 3,
    0x52, 0x57, 0x65, 0, 0, 0, 0xC9, 0, 0, 0, 0, 0, 0, 0, 0x14, 0, 0, 0, 2, 0, 0, 1,
    0x53, 0x54, 2, 0, 10, 0,
    0x53, 0x54, 3, 0, 0, 0,
    0x52, 0x57, 0x66, 0, 0, 0, 0xCA, 0, 0, 0, 0, 0, 0, 0, 0x13, 0, 0, 0, 2, 0, 0, 1,
    0x53, 0x54, 1, 0, 4, 0,
    0x53, 0x54, 2, 0, 0, 0,
    0x52, 0x57, 0x67, 0, 0, 0, 0xCB, 0, 0, 0, 0, 0, 0, 0, 0x12, 0, 0, 0, 2, 0, 0, 1,
    0x53, 0x54, 2, 0, 3, 0,
    0x53, 0x54, 1, 0, 0, 0,
    0x45, 0x4E, 6, 0,
};

/* And in version 1. */
static const uint8_t FILE_OF_A_1[A_BYTES_1] = {
    0x4C, 0x44, 1, 3,
    0x52, 0x57, 0x65, 0, 0, 0, 0xC9, 0, 0, 0, 0, 0, 0, 0, 0x14, 0, 0, 0, 2, 0,
    0x53, 0x54, 2, 0, 10, 0,
    0x53, 0x54, 3, 0, 0, 0,
    0x52, 0x57, 0x66, 0, 0, 0, 0xCA, 0, 0, 0, 0, 0, 0, 0, 0x13, 0, 0, 0, 2, 0,
    0x53, 0x54, 1, 0, 4, 0,
    0x53, 0x54, 2, 0, 0, 0,
    0x52, 0x57, 0x67, 0, 0, 0, 0xCB, 0, 0, 0, 0, 0, 0, 0, 0x12, 0, 0, 0, 2, 0,
    0x53, 0x54, 2, 0, 3, 0,
    0x53, 0x54, 1, 0, 0, 0,
    0x45, 0x4E, 6, 0,
};

static long reading(const uint8_t *bytes, size_t length)
{
    struct load load;
    return read_load(bytes, length, &load);
}

static long reading_with_bytes(const uint8_t *file, size_t length, size_t at, uint8_t byte,
                               uint8_t next)
{
    uint8_t bytes[A_BYTES];
    memcpy(bytes, file, length);
    bytes[at] = byte;
    bytes[at + 1] = next;
    return reading(bytes, length);
}

/* Class and head of row 2. */
static long reading_with(uint8_t class, uint8_t head)
{
    return reading_with_bytes(FILE_OF_A, A_BYTES, 38 + 20, class, head);
}

static void range_cases(struct tally *tally)
{
    for (uint8_t class = 0; class <= 3; class++)
        same(tally, "a class of 0 to 3", 0, reading_with(class, 1));
    same(tally, "class 4", 3, reading_with(4, 1));
    same(tally, "class 255", 3, reading_with(255, 1));
    same(tally, "head 0", 3, reading_with(0, 0));
    same(tally, "head 2", 3, reading_with(0, 2));
    same(tally, "head 255", 3, reading_with(0, 255));
    same(tally, "class and head exchanged", 3, reading_with(1, 0));
    struct load load = urgent_a();
    load.rows[2].head = 2;
    load.rows[2].identifier.number = UINT32_MAX;
    uint8_t bytes[MOST_LOAD_BYTES];
    same(tally, "head 2 before 21", 3,
         reading(bytes, (size_t)(put_load(bytes, &load) - bytes)));
    load.rows[2].head = 1;
    same(tally, "21 with a class", 21,
         reading(bytes, (size_t)(put_load(bytes, &load) - bytes)));
}

static void header_cases(struct tally *tally)
{
    same(tally, "version 0", 2, reading_with_bytes(FILE_OF_A, A_BYTES, 2, 0, 3));
    same(tally, "version 3", 2, reading_with_bytes(FILE_OF_A, A_BYTES, 2, 3, 3));
    same(tally, "version 255", 2, reading_with_bytes(FILE_OF_A, A_BYTES, 2, 255, 3));
    same(tally, "version 3 and 25 rows", 2, reading_with_bytes(FILE_OF_A, A_BYTES, 2, 3, 25));
    same(tally, "version 2 and 25 rows", 3, reading_with_bytes(FILE_OF_A, A_BYTES, 2, 2, 25));
    same(tally, "version 1 with version byte 2", 3,
         reading_with_bytes(FILE_OF_A_1, A_BYTES_1, 2, 2, 3));
    same(tally, "version 2 with version byte 1", 2,
         reading_with_bytes(FILE_OF_A, A_BYTES, 2, 1, 3));
}

static void length_cases(struct tally *tally)
{
    uint8_t longer[A_BYTES + 1] = {0};
    memcpy(longer, FILE_OF_A, A_BYTES);
    same(tally, "all of it", 0, reading(FILE_OF_A, A_BYTES));
    for (size_t length = 0; length < A_BYTES; length++)
        same(tally, "cut short", 1, reading(FILE_OF_A, length));
    longer[4 + 21] = 2;
    same(tally, "a row record without its head", 1, reading(longer, 4 + 21));
    same(tally, "and with it", 3, reading(longer, 4 + 22));
    longer[4 + 21] = 1;
    same(tally, "a byte follows", 8, reading(longer, sizeof longer));
    struct load none;
    same(tally, "no rows", 0, read_load((const uint8_t *)"LD\2\0EN\0", 8, &none));
    same(tally, "the longest file", 2264, MOST_LOAD_BYTES);
}

/* Each field of a row, and of an unused one. */
static void reading_cases(struct tally *tally)
{
    struct load load;
    uint8_t bytes[MOST_LOAD_BYTES];
    struct load urgent = urgent_a();
    size_t length = (size_t)(put_load(bytes, &urgent) - bytes);
    same(tally, "A with classes in its lowest version", A_BYTES, (long)length);
    same(tally, "its version", 2, bytes[2]);
    same(tally, "read", 0, read_load(bytes, length, &load));
    same(tally, "class of row 2", 0, load.rows[1].class);
    same(tally, "class of row 3", 3, load.rows[2].class);
    same(tally, "head of row 3", 1, load.rows[2].head);
    same(tally, "deadline of row 3", 18, (long)load.rows[2].deadline);
    same(tally, "head of row 4", 0, load.rows[3].head);
    same(tally, "version 1 read", 0, read_load(FILE_OF_A_1, A_BYTES_1, &load));
    same(tally, "class of version 1", 0, load.rows[1].class);
    same(tally, "head of version 1", 1, load.rows[1].head);
    same(tally, "head of row 4 of version 1", 0, load.rows[3].head);
}

/* Each version read, and written in either. */
static void moved(struct tally *tally, const uint8_t *from, size_t length)
{
    struct load load;
    uint8_t bytes[A_BYTES];
    size_t written;
    same(tally, "read", 0, read_load(from, length, &load));
    same(tally, "version 2", 0, write_version_2(&load, bytes, sizeof bytes, &written));
    same(tally, "its length", A_BYTES, (long)written);
    same(tally, "its bytes", 0, memcmp(bytes, FILE_OF_A, A_BYTES));
    same(tally, "version 1", 0, write_version_1(&load, bytes, A_BYTES_1, &written));
    same(tally, "its length", A_BYTES_1, (long)written);
    same(tally, "its bytes", 0, memcmp(bytes, FILE_OF_A_1, A_BYTES_1));
}

/* 9 comes last, and nothing past the file is written; 22 is not given. */
static void room_cases(struct tally *tally)
{
    struct load load = urgent_a();
    uint8_t bytes[A_BYTES + 1];
    size_t written = 1;
    memset(bytes, STAYS, sizeof bytes);
    same(tally, "no room", 9, write_version_2(&load, bytes, 0, &written));
    same(tally, "a byte too few", 9, write_version_2(&load, bytes, A_BYTES - 1, &written));
    same(tally, "nothing told", 0, (long)written);
    same(tally, "nothing written", STAYS, bytes[0]);
    same(tally, "just enough", 0, write_version_2(&load, bytes, A_BYTES, &written));
    same(tally, "class of row 3", 3, bytes[72 + 20]);
    same(tally, "a byte more", 0, write_version_2(&load, bytes, A_BYTES + 1, &written));
    same(tally, "which stays", STAYS, bytes[A_BYTES]);
    load.rows[1].class = 4;
    same(tally, "3 before 9", 3, write_version_2(&load, bytes, 0, &written));
}

/* What a host gets of a file with a class: never 22. */
static void call_cases_of_file(struct tally *tally)
{
    struct load load = urgent_a();
    uint8_t bytes[MOST_LOAD_BYTES], out[MARGINS_BYTES];
    size_t length = (size_t)(put_load(bytes, &load) - bytes);
    same(tally, "bound", 0, (long)second_bound(bytes, length, out, sizeof out));
    same(tally, "of A", 19, out[0]);
    same(tally, "margins", 0, (long)second_margins(bytes, length, out, sizeof out));
    same(tally, "of A", 0, memcmp(out, "\1\0\0\0\0\0\0\0\xFF\xFF\xFF\xFF", 12));
    same(tally, "verdict", 0, (long)second_verdict(bytes, length, out, sizeof out));
    same(tally, "of A", 0, out[0]);
    same(tally, "schedule", 0, (long)second_schedule(bytes, length, out, sizeof out));
    same(tally, "its slots", 6, out[2]);
}

void version_cases(struct tally *tally)
{
    range_cases(tally);
    header_cases(tally);
    length_cases(tally);
    reading_cases(tally);
    moved(tally, FILE_OF_A, A_BYTES);
    moved(tally, FILE_OF_A_1, A_BYTES_1);
    room_cases(tally);
    call_cases_of_file(tally);
}
