/* The calls over a load file's bytes: what they write, 9, and what stays. */
#include <string.h>

#include "calls.h"
#include "cases.h"
#include "load_file.h"

enum { ROOM = 128, STAYS = 0xAA };

struct lent {
    size_t length;
    uint8_t load[ROOM];
    uint8_t out[ROOM];
};

typedef uint32_t call(const uint8_t *load, size_t load_len, uint8_t *out, size_t out_len);

static struct lent lend(struct load load)
{
    struct lent lent = {0};
    lent.length = (size_t)(put_load(lent.load, &load) - lent.load);
    memset(lent.out, STAYS, sizeof lent.out);
    return lent;
}

/* The number, and whether exactly the wanted bytes were written. */
static void called(struct tally *tally, const char *what, call *asked, const uint8_t *wanted,
                   size_t length)
{
    struct lent lent = lend(load_b());
    same(tally, what, 9, (long)asked(lent.load, lent.length, lent.out, length - 1));
    same(tally, what, STAYS, lent.out[0]);
    same(tally, what, 1, (long)asked(lent.load, lent.length - 1, lent.out, 0));
    same(tally, what, 0, (long)asked(lent.load, lent.length, lent.out, length));
    same(tally, what, 0, memcmp(wanted, lent.out, length));
    same(tally, what, STAYS, lent.out[length]);
    same(tally, what, 0, (long)asked(lent.load, lent.length, lent.out, ROOM));
}

/* Load B: bound 15, five slots. Row 2 has one step; cut to it, both windows stay whole, so its
   row bound is 15 too, and all three margins are 999,985 (0F 42 31). */
void call_cases(struct tally *tally)
{
    const uint8_t bound[] = {15, 0, 0, 0};
    const uint8_t verdict[] = {1};
    const uint8_t margins[96] = {0x31, 0x42, 0x0F, 0, 0x31, 0x42, 0x0F, 0, 0x31, 0x42, 0x0F, 0};
    const uint8_t slots[] = {0x53, 0x43, 5, 0,
                             0x53, 0x4C, 1, 1, 0, 0, 0, 0,
                             0x53, 0x4C, 2, 1, 2, 0, 0, 0,
                             0x53, 0x4C, 1, 2, 6, 0, 0, 0,
                             0x53, 0x4C, 3, 1, 8, 0, 0, 0,
                             0x53, 0x4C, 3, 2, 11, 0, 0, 0};
    called(tally, "bound", second_bound, bound, sizeof bound);
    called(tally, "verdict", second_verdict, verdict, sizeof verdict);
    called(tally, "margins", second_margins, margins, sizeof margins);
    called(tally, "schedule", second_schedule, slots, sizeof slots);
    struct load late = load_b();
    late.rows[1].deadline = 14;
    struct lent lent = lend(late);
    second_margins(lent.load, lent.length, lent.out, ROOM);
    same(tally, "margin -1", 0, memcmp(lent.out + 4, "\xFF\xFF\xFF\xFF", 4));
    second_verdict(lent.load, lent.length, lent.out, ROOM);
    same(tally, "verdict no", 0, lent.out[0]);
}
