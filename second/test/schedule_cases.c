/* Schedule files, and slot lists against their load: 3, 9, 12 to 17. */
#include <string.h>

#include "cases.h"
#include "schedule.h"

static void writing_cases(struct tally *tally)
{
    uint8_t bytes[120];
    size_t written;
    struct slot slots[MOST_SLOTS + 1] = {{255, 0, UINT32_MAX}};
    memset(bytes, 0xAA, sizeof bytes);
    same(tally, "193 slots", 3, write_schedule(slots, 193, bytes, 0, &written));
    same(tally, "192 slots, no room", 9, write_schedule(slots, 192, bytes, 120, &written));
    same(tally, "one slot, room 11", 9, write_schedule(slots, 1, bytes, 11, &written));
    same(tally, "nothing written", 0xAA, bytes[0]);
    same(tally, "one slot, unchecked", 0, write_schedule(slots, 1, bytes, 12, &written));
    const uint8_t wanted[] = {0x53, 0x43, 1, 0, 0x53, 0x4C, 255, 0, 255, 255, 255, 255, 0xAA};
    same(tally, "schedule bytes", 0, memcmp(wanted, bytes, sizeof wanted));
}

#define CHECKED(number, ...) \
    do { \
        struct slot slots[] = {__VA_ARGS__}; \
        same(tally, "check: " #__VA_ARGS__, number, \
             check_schedule(&load, slots, sizeof slots / sizeof slots[0])); \
    } while (0)

/* Two windows in one row, phase 5, deadline 100: 5, 8, 9, 13 is the earliest good list. */
static void slot_cases(struct tally *tally)
{
    struct load load = load_two_windows();
    CHECKED(0, {1, 1, 5}, {1, 2, 8}, {1, 3, 9}, {1, 4, 13});
    CHECKED(12, {1, 1, 5}, {1, 2, 8}, {1, 3, 9});
    CHECKED(12, {1, 1, 5}, {1, 2, 8}, {1, 3, 9}, {1, 4, 13}, {1, 5, 14});
    CHECKED(13, {0, 1, 5}, {1, 2, 8}, {1, 3, 9}, {1, 4, 13});
    CHECKED(13, {2, 1, 5}, {1, 2, 8}, {1, 3, 9}, {1, 4, 13});
    CHECKED(13, {1, 2, 5}, {1, 1, 8}, {1, 3, 9}, {1, 4, 13});
    CHECKED(13, {1, 0, 5}, {1, 2, 8}, {1, 3, 9}, {1, 4, 13});
    CHECKED(13, {1, 1, 5}, {1, 1, 8}, {1, 3, 9}, {1, 4, 13});
    CHECKED(13, {1, 1, 5}, {1, 2, 8}, {1, 3, 9}, {1, 4, 1000001});
    CHECKED(16, {1, 1, 5}, {1, 2, 8}, {1, 3, 9}, {1, 4, 1000000});
    CHECKED(14, {1, 1, 5}, {1, 2, 5}, {1, 3, 9}, {1, 4, 13});
    CHECKED(15, {1, 1, 4}, {1, 2, 8}, {1, 3, 9}, {1, 4, 13});
    CHECKED(15, {1, 1, 5}, {1, 2, 7}, {1, 3, 9}, {1, 4, 13});
    CHECKED(16, {1, 1, 5}, {1, 2, 9}, {1, 3, 10}, {1, 4, 14});
    CHECKED(0, {1, 1, 5}, {1, 2, 8}, {1, 3, 9}, {1, 4, 17});
    CHECKED(16, {1, 1, 5}, {1, 2, 8}, {1, 3, 9}, {1, 4, 18});
    CHECKED(0, {1, 1, 5}, {1, 2, 8}, {1, 3, 95}, {1, 4, 99});
    CHECKED(17, {1, 1, 5}, {1, 2, 8}, {1, 3, 96}, {1, 4, 100});
    load.rows[0].windows[0].limit = 3;
    CHECKED(7, {1, 1, 5});
}

/* Rows may be taken in any order as long as each row's own steps are in turn. */
static void order_cases(struct tally *tally)
{
    struct load load = load_b();
    CHECKED(0, {1, 1, 0}, {1, 2, 6}, {3, 1, 8}, {3, 2, 11}, {2, 1, 12});
    CHECKED(14, {1, 1, 0}, {1, 2, 6}, {3, 1, 8}, {3, 2, 11}, {2, 1, 11});
    CHECKED(14, {1, 1, 0}, {1, 2, 6}, {3, 1, 7}, {3, 2, 11}, {2, 1, 12});
}

/* 2 w3 1 / 3: row 1's step 2 may start at 5. */
static void early_cases(struct tally *tally)
{
    struct load load = {2, {
        {{101}, {201}, 0, 1000000, 2, 0, 0, 1, {{2, 3}, {1, 0}}, {{0, 0, 0}}},
        {{102}, {202}, 0, 1000000, 1, 0, 0, 1, {{3, 0}}, {{0, 0, 0}}},
    }};
    CHECKED(0, {1, 1, 0}, {2, 1, 2}, {1, 2, 5});
    CHECKED(14, {1, 1, 0}, {2, 1, 2}, {1, 2, 4});
    CHECKED(15, {1, 1, 0}, {1, 2, 4}, {2, 1, 5});
    CHECKED(14, {1, 1, 0}, {1, 2, 5}, {2, 1, 5});
}

void schedule_cases(struct tally *tally)
{
    writing_cases(tally);
    slot_cases(tally);
    order_cases(tally);
    early_cases(tally);
}
