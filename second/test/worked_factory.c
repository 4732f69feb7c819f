/* The factory identifier (21): after every 3 of its row's own fields, before 4 and 5 and before the
   row's steps; 18, 19, 20 and too many rows come before it, as they come before 3 to 7. */
#include "worked_sheets.h"

#define FACTORY(rest) LINE("4294967295," rest)

/* Two steps of its row; and a window of two whose limit is below their chain. */
#define STEPS_2 FACTORY("1,0,9,1,1,") FACTORY("1,0,9,1,1,")
#define SHORT_WINDOW FACTORY("1,0,9,1,1,2") FACTORY("1,0,9,1,0,-")

const struct worked_sheet WORKED_FACTORY[] = {
    {21, "the factory identifier", FACTORY("1,0,9,1,0,")},
    {3, "one more", LINE("4294967296,1,0,9,1,0,")},
    {0, "one less, in the largest box", LINE("4294967294,4294967295,0,9,1,0,")},
    {21, "it, in the largest box", FACTORY("4294967295,0,9,1,0,")},
    {21, "it, on two lines of one row", FACTORY("1,0,9,1,4,") FACTORY("1,0,9,1,0,")},
    {21, "it, in two rows", FACTORY("1,0,9,1,0,") IN_2("3,0,") FACTORY("3,0,9,1,0,")},
    {4, "one less, in two rows", LINE("4294967294,1,0,9,1,0,") IN_2("3,0,")
        LINE("4294967294,3,0,9,1,0,")},
    {21, "it, in the second of three rows", IN_1("2,0,") FACTORY("1,0,9,1,0,") IN_2("3,0,")},
    {21, "it, in row 24", ROWS_23 FACTORY("24,0,9,1,0,")},
    {3, "it, and box 0", FACTORY("0,0,9,1,0,")},
    {3, "it, and a wide box", FACTORY("4294967296,0,9,1,0,")},
    {3, "it, and phase 86,401", FACTORY("1,86401,9,1,0,")},
    {3, "it, and deadline 0", FACTORY("1,0,0,1,0,")},
    {3, "it, and deadline 1,000,001", FACTORY("1,0,1000001,1,0,")},
    {3, "it, and nine steps", STEPS_2 STEPS_2 STEPS_2 STEPS_2 FACTORY("1,0,9,1,0,")},
    {21, "it, and cost 0", FACTORY("1,0,9,0,0,")},
    {21, "it, and a wide cost", FACTORY("1,0,9,65536,0,")},
    {21, "it, and a last wait of 1", FACTORY("1,0,9,1,1,")},
    {21, "it, and a limit below its chain", SHORT_WINDOW},
    {21, "it, and the box of the row before", IN_1("2,0,") FACTORY("201,0,9,1,0,")},
    {21, "it, then row 1 again", IN_1("2,0,") FACTORY("1,0,9,1,0,") IN_1("2,0,")},
    {3, "cost 0 in the row before", IN_1("0,0,") FACTORY("1,0,9,1,0,")},
    {7, "a limit below its chain in the row before", IN_1("2,4,7") IN_1("2,0,-")
        FACTORY("1,0,9,1,0,")},
    {4, "an identifier again in the row before", IN_1("2,0,") IN_2("3,0,") IN_1("2,0,")
        FACTORY("1,0,9,1,0,")},
    {5, "a box again in the row before", IN_1("2,0,") LINE("102,201,0,9,1,0,")
        FACTORY("1,0,9,1,0,")},
    {3, "it, in the first of 25 rows", FACTORY("99,0,9,1,0,") ROWS_23 ROW(24)},
    {18, "it, with a leading zero", LINE("04294967295,1,0,9,1,0,")},
    {18, "it, then a malformed line", FACTORY("1,0,9,1,0,") LINE("102,202,0,9,1,0")},
    {19, "it, with two boxes", FACTORY("1,0,9,1,4,") FACTORY("2,0,9,1,0,")},
    {20, "it, with a dash alone", FACTORY("1,0,9,1,0,-")},
    {20, "it, with a window of one step", FACTORY("1,0,9,1,0,9")},
    {0, NULL, NULL},
};
