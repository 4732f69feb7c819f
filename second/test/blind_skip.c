/* With a load file on standard input: prints the slots of a bench that skips over idle ticks to the
   next release. With the word `search`: prints the smallest load of two rows `COST wWAIT COST` on
   which that shows, by the sum of its numbers, then in the order of counting. */
#include <stdio.h>
#include <string.h>

#include "load_file.h"
#include "skipping.h"

enum { FIELDS = 8, MOST_SUM = 40 };

/* Four numbers a row: cost, wait, cost, and the limit of a window over both. */
static struct load load_of(const unsigned *numbers)
{
    struct load load = {.row_count = 2};
    for (unsigned row = 1; row <= 2; row++, numbers += 4)
        load.rows[row - 1] = (struct row){
            {100 + row}, {200 + row}, 0, MOST_DEADLINE, 2, 1, 0, 1,
            {{(uint16_t)numbers[0], (uint16_t)numbers[1]}, {(uint16_t)numbers[2], 0}},
            {{1, 2, (uint16_t)numbers[3]}}};
    return load;
}

/* The next way to write the same sum in the fields; false after the last. */
static bool count_on(unsigned *numbers)
{
    unsigned place = FIELDS - 1;
    while (place > 0 && numbers[place] == 0)
        place--;
    if (place == 0)
        return false;
    unsigned rest = numbers[place] - 1;
    numbers[place] = 0;
    numbers[place - 1]++;
    numbers[FIELDS - 1] = rest;
    return true;
}

static bool search_sum(unsigned sum)
{
    unsigned numbers[FIELDS] = {0};
    numbers[FIELDS - 1] = sum;
    do {
        struct load load = load_of(numbers);
        if (!shows_skipping(&load))
            continue;
        for (const unsigned *at = numbers; at < numbers + FIELDS; at += 4)
            printf("%u w%u %u : 1-2<=%u\n", at[0], at[1], at[2], at[3]);
        return true;
    } while (count_on(numbers));
    return false;
}

int main(int count, char **words)
{
    if (count == 2 && strcmp(words[1], "search") == 0) {
        for (unsigned sum = 0; sum <= MOST_SUM; sum++)
            if (search_sum(sum))
                return 0;
        return 1;
    }
    uint8_t bytes[MOST_LOAD_BYTES + 1];
    struct load load;
    if (read_load(bytes, fread(bytes, 1, sizeof bytes, stdin), &load) != ACCEPTED)
        return 2;
    struct run run = skipping_run_of(&load);
    for (unsigned place = 0; place < run.slot_count; place++)
        printf("slot %lu %u %u\n", (unsigned long)run.slots[place].start, run.slots[place].row,
               run.slots[place].step);
    return run.refusal == ACCEPTED ? 0 : 1;
}
