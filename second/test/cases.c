#include "cases.h"

#include <stdio.h>

void same(struct tally *tally, const char *what, long wanted, long found)
{
    tally->passed += wanted == found;
    tally->failed += wanted != found;
    if (wanted != found)
        printf("FAILED %s: wanted %ld, found %ld\n", what, wanted, found);
}

struct load load_b(void)
{
    return (struct load){3, {
        {{101}, {201}, 0, 1000000, 2, 1, 0, 1, {{2, 4}, {2, 0}}, {{1, 2, 8}}},
        {{102}, {202}, 0, 1000000, 1, 0, 0, 1, {{3, 0}}, {{0, 0, 0}}},
        {{103}, {203}, 0, 1000000, 2, 1, 0, 1, {{2, 1}, {1, 0}}, {{1, 2, 6}}},
    }};
}

struct load load_a(void)
{
    return (struct load){3, {
        {{101}, {201}, 0, 20, 2, 0, 0, 1, {{2, 10}, {3, 0}}, {{0, 0, 0}}},
        {{102}, {202}, 0, 19, 2, 0, 0, 1, {{1, 4}, {2, 0}}, {{0, 0, 0}}},
        {{103}, {203}, 0, 18, 2, 0, 0, 1, {{2, 3}, {1, 0}}, {{0, 0, 0}}},
    }};
}

struct load urgent_a(void)
{
    struct load load = load_a();
    load.rows[2].class = 3;
    return load;
}

struct load load_two_windows(void)
{
    return (struct load){1, {
        {{101}, {201}, 5, 100, 4, 2, 0, 1,
         {{1, 2}, {1, 0}, {1, 3}, {1, 0}}, {{1, 2, 4}, {3, 4, 9}}},
    }};
}

int main(void)
{
    struct tally tally = {0, 0};
    load_cases(&tally);
    factory_cases(&tally);
    urgent_cases(&tally);
    version_cases(&tally);
    turn_cases(&tally);
    sheet_cases(&tally);
    bound_cases(&tally);
    blame_cases(&tally);
    bench_cases(&tally);
    schedule_cases(&tally);
    call_cases(&tally);
    printf("cases: %u as the document says, %u not\n", tally.passed, tally.failed);
    return tally.failed == 0 ? 0 : 1;
}
