/* Numbers of up to ten digits that are beyond their fields: whole numbers all the same. Each of
   these would be another one, and mostly a good one, if it were cut to its field's bytes. */
#include "worked_sheets.h"

const struct worked_sheet WORKED_WIDE[] = {
    {3, "the largest identifier of ten digits", LINE("9999999999,201,0,9,1,0,")},
    {3, "the largest box", LINE("101,9999999999,0,9,1,0,")},
    {3, "the largest phase", LINE("101,201,9999999999,9,1,0,")},
    {3, "the largest deadline", LINE("101,201,0,9999999999,1,0,")},
    {3, "the largest cost", LINE("101,201,0,9,9999999999,0,")},
    {3, "the largest wait", LINE("101,201,0,9,1,9999999999,") LINE("101,201,0,9,1,0,")},
    {3, "the largest limit", LINE("101,201,0,9,1,4,9999999999") LINE("101,201,0,9,1,0,-")},
    {3, "an identifier that would be 101", LINE("4294967397,201,0,9,1,0,")},
    {3, "a box that would be 201", LINE("101,4294967497,0,9,1,0,")},
    {3, "a phase that would be 0", LINE("101,201,4294967296,9,1,0,")},
    {3, "a phase that would be 86,400", LINE("101,201,8590020992,9,1,0,")},
    {3, "a deadline that would be 9", LINE("101,201,0,4294967305,1,0,")},
    {3, "a cost that would be 1 in two bytes", LINE("101,201,0,9,65537,0,")},
    {3, "a cost that would be 1 in four", LINE("101,201,0,9,4294967297,0,")},
    {3, "a cost of 65,535", LINE("101,201,0,9,65535,0,")},
    {3, "a wait that would be 4 in two bytes", LINE("101,201,0,9,1,65540,")
        LINE("101,201,0,9,1,0,")},
    {3, "a wait that would be 4 in four", LINE("101,201,0,9,1,4294967300,")
        LINE("101,201,0,9,1,0,")},
    {3, "a last wait that would be 0 in two bytes", LINE("101,201,0,9,1,65536,")},
    {3, "a last wait that would be 0 in four", LINE("101,201,0,9,1,4294967296,")},
    {3, "a limit that would be 8 in two bytes", IN_1("2,4,65544") IN_1("2,0,-")},
    {3, "a limit that would be 8 in four", IN_1("2,4,4294967304") IN_1("2,0,-")},
    {3, "a limit that would be 7 in two bytes", IN_1("2,4,65543") IN_1("2,0,-")},
    {20, "a limit that would be 0, alone", IN_1("2,0,65536")},
    {3, "a wide limit behind a good window", IN_1("1,1,3") IN_1("1,1,-") IN_1("1,1,65539")
        IN_1("1,0,-")},
    {7, "a wide limit behind a short one", IN_1("1,1,2") IN_1("1,1,-") IN_1("1,1,65539")
        IN_1("1,0,-")},
    {3, "101 in 32 bits: a new row", IN_1("2,0,") LINE("4294967397,202,0,1000000,3,0,")},
    {3, "101 in 32 bits: a new row of the same box", IN_1("2,4,")
        LINE("4294967397,201,0,1000000,2,0,")},
    {3, "101 in 32 bits, before 101", LINE("4294967397,202,0,1000000,3,0,") IN_1("2,0,")},
    {20, "101 in 32 bits, with a dash", IN_1("2,4,8") LINE("4294967397,201,0,1000000,2,0,-")},
    {20, "101 in 32 bits, before a dash of 101", LINE("4294967397,201,0,1000000,2,4,8")
        IN_1("2,0,-")},
    {7, "101 in 32 bits, behind a window that is too short", IN_1("2,4,7") IN_1("2,0,-")
        LINE("4294967397,201,0,1000000,2,0,")},
    {3, "101 in 32 bits, before a window that is too short",
        LINE("4294967397,202,0,1000000,3,0,") IN_1("2,4,7") IN_1("2,0,-")},
    {3, "two identifiers alike in 32 bits alone", LINE("4294967397,201,0,9,1,0,")
        LINE("8589934693,202,0,9,1,0,")},
    {3, "one wide identifier on two lines", LINE("4294967397,201,0,9,1,4,")
        LINE("4294967397,201,0,9,1,0,")},
    {19, "one wide identifier with two boxes", LINE("4294967397,201,0,9,1,4,")
        LINE("4294967397,202,0,9,1,0,")},
    {19, "201 in 32 bits: another box", IN_1("2,4,") LINE("101,4294967497,0,1000000,2,0,")},
    {19, "201 in 32 bits, and then 201", LINE("101,4294967497,0,1000000,2,4,") IN_1("2,0,")},
    {19, "two wide boxes alike in 32 bits", LINE("101,4294967497,0,9,1,4,")
        LINE("101,8589934793,0,9,1,0,")},
    {3, "one wide box on two lines", LINE("101,4294967497,0,9,1,4,")
        LINE("101,4294967497,0,9,1,0,")},
    {3, "201 in 32 bits in another row: no box again", IN_1("2,0,")
        LINE("102,4294967497,0,1000000,3,0,")},
    {19, "phase 0 in 32 bits: another phase", IN_1("2,4,") LINE("101,201,4294967296,1000000,2,0,")},
    {19, "deadline 1,000,000 in 32 bits: another deadline", IN_1("2,4,")
        LINE("101,201,0,4295967296,2,0,")},
    {19, "phases beyond 32 bits, one apart", LINE("101,201,9999999998,9,1,4,")
        LINE("101,201,9999999999,9,1,0,")},
    {4, "identifier again, then a wide box", IN_1("2,0,") IN_2("3,0,") IN_1("2,0,")
        LINE("103,4294967497,0,9,1,0,")},
    {5, "box again, then a wide identifier", IN_1("2,0,") LINE("102,201,0,9,1,0,")
        LINE("4294967398,203,0,9,1,0,")},
    {0, NULL, NULL},
};
