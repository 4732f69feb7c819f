#include "worked.h"

/* Rows 101, 102 and so on, in boxes 201, 202 and so on, with phase 0 and no window. */
#define ROW(number, deadline, count, ...) \
    {{100 + number}, {200 + number}, 0, deadline, count, 0, 0, 1, {__VA_ARGS__}, {{0, 0, 0}}}

/* The same with deadline 1,000,000 and a window over the first two steps. */
#define WINDOW_ROW(number, limit, count, ...) \
    {{100 + number}, {200 + number}, 0, 1000000, count, 1, 0, 1, {__VA_ARGS__}, {{1, 2, limit}}}

const struct worked WORKED[WORKED_LOADS] = {
    {"A: 2 w10 3 / 1 w4 2 / 2 w3 1",
     {3, {ROW(1, 20, 2, {2, 10}, {3, 0}), ROW(2, 19, 2, {1, 4}, {2, 0}),
          ROW(3, 18, 2, {2, 3}, {1, 0})}},
     {{8, 1}}, {1, 0, -1}, {{1, 1}, {1, 1}, {1, 1}}},

    {"1 / 2 w6 2: cut to one step, nothing waits",
     {2, {ROW(1, 1000000, 1, {1, 0}), ROW(2, 1000000, 2, {2, 6}, {2, 0})}},
     {{6, 2}}, {999997, 999989}, {{0, 0}, {1, 2}}},

    {"1 w9 1 w9 1 twice: lowest row, lowest place",
     {2, {ROW(1, 1000000, 3, {1, 9}, {1, 9}, {1, 0}), ROW(2, 1000000, 3, {1, 9}, {1, 9}, {1, 0})}},
     {{8, 1}, {8, 1}}, {999978, 999978}, {{1, 1}, {1, 1}}},

    {"1 w5 1 / 1 w9 1: the later row",
     {2, {ROW(1, 1000000, 2, {1, 5}, {1, 0}), ROW(2, 1000000, 2, {1, 9}, {1, 0})}},
     {{8, 2}}, {999988, 999988}, {{1, 2}, {1, 2}}},

    {"1 w4 1 / 1 w2 1 w3 1 w20 1 / 3: the cut decides",
     {3, {ROW(1, 1000000, 2, {1, 4}, {1, 0}),
          ROW(2, 1000000, 4, {1, 2}, {1, 3}, {1, 20}, {1, 0}), ROW(3, 1000000, 1, {3, 0})}},
     {{3, 1}, {3, 2}, {20, 2}}, {999990, 999965, 999995}, {{1, 1}, {3, 2}, {0, 0}}},

    {"5 w3 5 / 6 w4 6: free waits, but W is 0",
     {2, {ROW(1, 1000000, 2, {5, 3}, {5, 0}), ROW(2, 1000000, 2, {6, 4}, {6, 0})}},
     {{0, 0}}, {999978, 999978}, {{0, 0}}},

    /* Two other rows give four costs of 1, of which two are taken. */
    {"1 w3 1 / 1 w9 1 / 1 w9 1: the lower of two rows, not the first",
     {3, {ROW(1, 1000000, 2, {1, 3}, {1, 0}), ROW(2, 1000000, 2, {1, 9}, {1, 0}),
          ROW(3, 1000000, 2, {1, 9}, {1, 0})}},
     {{7, 2}}, {999987, 999987, 999987}, {{1, 2}, {1, 2}, {1, 2}}},

    /* Row 2 has 10 - 1 at place 1, row 1 has 9 at place 2, where it is alone. */
    {"1 w2 1 w9 1 / 1 w10 1: the lower place, though its row is the higher",
     {2, {ROW(1, 1000000, 3, {1, 2}, {1, 9}, {1, 0}), ROW(2, 1000000, 2, {1, 10}, {1, 0})}},
     {{9, 2}, {9, 1}}, {999977, 999987}, {{1, 2}, {1, 2}}},

    /* Cut to one step, row 1 keeps its window whole and loses the wait behind it: bound 6 + 4. */
    {"2 w4 3 w50 1 (window 1 to 2) / 1: a wait behind a window",
     {2, {WINDOW_ROW(1, 9, 3, {2, 4}, {3, 50}, {1, 0}), ROW(2, 1000000, 1, {1, 0})}},
     {{0, 0}, {50, 1}}, {999939, 999990}, {{2, 1}, {0, 0}}},

    {"8 steps of 1, a wait of 5 before the last: place 7",
     {1, {ROW(1, 1000000, 8, {1, 0}, {1, 0}, {1, 0}, {1, 0}, {1, 0}, {1, 0}, {1, 5}, {1, 0})}},
     {[6] = {5, 1}}, {999987}, {{7, 1}}},
};
