/* Too many rows, which comes before 3 to 7 and 21; too many steps, at the row's step count. */
#include "worked_sheets.h"

/* Steps and whole windows of row 101; the wait before the next is 1. */
#define STEP IN_1("1,1,")
#define STEPS_7 STEP STEP STEP STEP STEP STEP STEP
#define WINDOW IN_1("1,1,3") IN_1("1,1,-")
#define LAST_STEP IN_1("1,0,")

const struct worked_sheet WORKED_COUNTS[] = {
    {0, "23 rows", ROWS_23},
    {0, "24 rows", ROWS_23 ROW(24)},
    {3, "25 rows", ROWS_23 ROW(24) ROW(25)},
    {3, "26 rows", ROWS_23 ROW(24) ROW(25) ROW(26)},
    {3, "46 rows, the last 23 again", ROWS_23 ROWS_23},
    {4, "24 rows, the last identifier again", ROWS_23 ROW(1)},
    {5, "24 rows, the last box again", ROWS_23 LINE("24,23,0,9,1,0,")},
    {0, "24 rows, the last of two lines", ROWS_23 LINE("24,24,0,9,1,4,") LINE("24,24,0,9,1,0,")},
    {3, "25 rows, of which two are of one identifier", ROWS_23 ROW(1) ROW(2)},
    {3, "25 rows, the first of which comes back last", ROWS_23 ROW(24) ROW(1)},
    {18, "25 rows, the last malformed", ROWS_23 ROW(24) LINE("025,25,0,9,1,0,")},
    {18, "26 rows, the last malformed", ROWS_23 ROW(24) ROW(25) LINE("26,26,0,9,1,0")},
    {18, "25 rows, and no last CR LF", ROWS_23 ROW(24) "25,25,0,9,1,0,"},
    {19, "25 rows, two boxes in the last", ROWS_23 ROW(24) LINE("25,25,0,9,1,4,")
        LINE("25,26,0,9,1,0,")},
    {20, "25 rows, a dash on the last line", ROWS_23 ROW(24) LINE("25,25,0,9,1,0,-")},
    {20, "25 rows, a window of one step at the end", ROWS_23 ROW(24) LINE("25,25,0,9,1,0,9")},
    {20, "26 rows, a window of one step in the 25th", ROWS_23 ROW(24) LINE("25,25,0,9,1,0,9")
        ROW(26)},
    {3, "25 rows, a good window in the last", ROWS_23 ROW(24) LINE("25,25,0,9,1,0,9")
        LINE("25,25,0,9,1,0,-")},
    {3, "25 rows, and a limit below its chain in the first", IN_1("2,4,7") IN_1("2,0,-")
        ROWS_23 ROW(24)},
    {3, "25 rows, and an identifier again in row 3", ROW(1) ROW(2) ROWS_23},
    {3, "25 rows, and a box again in row 2", LINE("99,1,0,9,1,0,") ROWS_23 ROW(24)},
    {3, "25 rows, nine steps in the last", ROWS_23 ROW(24) STEPS_7 STEP LAST_STEP},
    {0, "eight steps", STEPS_7 LAST_STEP},
    {3, "nine steps", STEPS_7 STEP LAST_STEP},
    {3, "ten steps", STEPS_7 STEP STEP LAST_STEP},
    {3, "sixteen steps", STEPS_7 STEP STEPS_7 LAST_STEP},
    {3, "nine steps, the last in a window", STEPS_7 IN_1("1,1,3") IN_1("1,0,-")},
    {3, "nine steps in a window", IN_1("1,1,99") IN_1("1,1,-") IN_1("1,1,-") IN_1("1,1,-")
        IN_1("1,1,-") IN_1("1,1,-") IN_1("1,1,-") IN_1("1,1,-") IN_1("1,0,-")},
    {3, "four windows and a ninth step", WINDOW WINDOW WINDOW WINDOW LAST_STEP},
    {3, "five windows", WINDOW WINDOW WINDOW WINDOW IN_1("1,1,3") IN_1("1,0,-")},
    {3, "five windows, the first too short", IN_1("1,1,2") IN_1("1,1,-") WINDOW WINDOW WINDOW
        IN_1("1,1,3") IN_1("1,0,-")},
    {20, "a window of one step at the ninth", STEPS_7 STEP IN_1("1,0,3")},
    {20, "a dash at the ninth step", STEPS_7 STEP IN_1("1,0,-")},
    {20, "four windows, and a fifth of one step", WINDOW WINDOW WINDOW WINDOW IN_1("1,0,3")},
    {19, "another box at the ninth step", STEPS_7 STEP LINE("101,7,0,1000000,1,0,")},
    {18, "the ninth step malformed", STEPS_7 STEP LINE("101,201,0,1000000,1,0")},
    {7, "a row that is too short, then one of nine steps", IN_2("2,4,7") IN_2("2,0,-") STEPS_7 STEP
        LAST_STEP},
    {3, "nine steps, then a row that is too short", STEPS_7 STEP LAST_STEP IN_2("2,4,7")
        IN_2("2,0,-")},
    {3, "nine steps of an identifier that comes back", STEPS_7 LAST_STEP IN_2("3,0,") STEPS_7 STEP
        LAST_STEP},
    {4, "eight steps of an identifier that comes back", STEPS_7 LAST_STEP IN_2("3,0,") STEPS_7
        LAST_STEP},
    {0, NULL, NULL},
};

const struct worked_sheet *const WORKED_SHEETS[] = {
    WORKED_LINES, WORKED_ORDERS, WORKED_MARKS, WORKED_RANGES, WORKED_WIDE, WORKED_COUNTS,
    WORKED_FACTORY, NULL,
};
