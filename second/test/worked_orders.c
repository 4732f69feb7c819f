/* 18, 19 and 20 on one line and on neighbouring ones: in line order, on one line in this order, and
   all before 3 to 7 and 21. */
#include "worked_sheets.h"

/* The second line of row 101, with another box; and that line malformed. */
#define OTHER_BOX(step) LINE("101,7,0,1000000," step)
#define MALFORMED LINE("101,201,0,1000000,2,x,")

const struct worked_sheet WORKED_ORDERS[] = {
    {19, "another box", IN_1("2,4,8") LINE("101,202,0,1000000,2,0,-")},
    {18, "another box with a leading zero", IN_1("2,4,8") LINE("101,0202,0,1000000,2,0,-")},
    {19, "another phase", IN_1("2,4,") LINE("101,201,1,1000000,2,0,")},
    {19, "another deadline", IN_1("2,4,") LINE("101,201,0,999999,2,0,")},
    {19, "another box on the third line", IN_1("2,4,") IN_1("2,4,") OTHER_BOX("2,0,")},
    {19, "another box and back", IN_1("2,4,") OTHER_BOX("2,4,") IN_1("2,0,")},
    {19, "another row's box", IN_1("2,0,") IN_2("3,4,") LINE("102,201,0,1000000,3,0,")},
    {19, "identifier and box exchanged", IN_1("2,4,") LINE("101,101,0,1000000,2,0,")},
    {0, "all of them other in a new row", IN_1("2,0,") LINE("102,7,5,9,2,0,")},
    {5, "none of them other in a new row", IN_1("2,0,") LINE("102,201,0,1000000,2,0,")},
    {19, "a box of 0 and another", LINE("101,0,0,9,1,4,") LINE("101,1,0,9,1,0,")},
    {19, "another phase, both out of range", LINE("101,201,86401,9,1,4,")
        LINE("101,201,86402,9,1,0,")},
    {3, "one phase out of range twice", LINE("101,201,86401,9,1,4,")
        LINE("101,201,86401,9,1,0,")},
    {18, "18 and 19 on one line", IN_1("2,4,") OTHER_BOX("02,0,")},
    {18, "18 in the last field and 19", IN_1("2,4,") OTHER_BOX("2,0,x")},
    {18, "18 at the line's end and 19", IN_1("2,4,") "101,7,0,1000000,2,0,\n"},
    {18, "18 and 20 on one line", LINE("101,201,0,1000000,02,0,-")},
    {18, "18 at the line's end and 20", "101,201,0,1000000,2,0,-\n"},
    {18, "18, 19 and 20 on one line", IN_1("2,4,") OTHER_BOX("02,0,-")},
    {19, "19 and 20 on one line", IN_1("2,4,") OTHER_BOX("2,0,-")},
    {18, "18, then 19", MALFORMED IN_1("2,4,") OTHER_BOX("2,0,")},
    {18, "18, then 20", MALFORMED IN_1("2,0,-")},
    {19, "19, then 18", IN_1("2,4,") OTHER_BOX("2,4,") MALFORMED},
    {19, "19, then 20", IN_1("2,4,") OTHER_BOX("2,4,") LINE("101,7,0,1000000,2,0,-")},
    {20, "20, then 18", IN_1("2,4,-") MALFORMED},
    {20, "20, then 19", IN_1("2,4,-") OTHER_BOX("2,0,-")},
    {20, "20, then 18 two lines on", IN_1("2,4,-") IN_1("2,4,-") MALFORMED},
    {18, "a window of one step, and 18 on the line that ends it", IN_1("2,4,8") MALFORMED},
    {18, "a window of one step, and half a line", IN_1("2,4,8") "102"},
    {18, "a window of one step, and an empty line", IN_1("2,4,8") LINE("")},
    {19, "a window of one step, and 19 on the line that ends it", IN_1("2,4,8") OTHER_BOX("2,0,")},
    {18, "a window of one step, and 18 and 19 there", IN_1("2,4,8") OTHER_BOX("2,00,")},
    {20, "a window of one step, and 18 one line later", IN_1("2,4,8") IN_1("2,4,") MALFORMED},
    {20, "a window of one step, and 19 one line later", IN_1("2,4,8") IN_1("2,4,")
        OTHER_BOX("2,0,")},
    {20, "a window of one step, and 18 in the next row", IN_1("2,0,8") IN_2("3,4,") MALFORMED},
    {20, "a window of one step in each of two rows", IN_1("2,0,8") IN_2("3,0,5")},
    {18, "a window of one step in row 1, 18 at row 2", IN_1("2,0,8") LINE("0102,202,0,9,3,0,")},
    {19, "a dash of another box", IN_1("2,4,8") OTHER_BOX("2,0,-")},
    {18, "18 after a whole window", IN_1("2,4,8") IN_1("2,4,-") MALFORMED},
    {18, "3, then 18", LINE("101,201,0,9,0,0,") LINE("102,x,0,9,1,0,")},
    {19, "3, then 19", LINE("0,201,0,9,1,0,") IN_2("3,4,") LINE("102,7,0,1000000,3,0,")},
    {20, "3, then 20", LINE("101,201,0,0,1,0,") IN_2("3,0,-")},
    {20, "3 on the line of 20", LINE("101,201,0,0,601,0,-")},
    {20, "3 on the line that ends a window of one step", IN_1("2,4,8") IN_1("601,0,")},
    {18, "4, then 18", IN_1("2,0,") IN_2("3,0,") IN_1("2,4,") MALFORMED},
    {19, "4, then 19", IN_1("2,0,") IN_2("3,0,") IN_1("2,4,") OTHER_BOX("2,0,")},
    {20, "4, then 20", IN_1("2,0,") IN_2("3,0,") IN_1("2,0,-")},
    {20, "5, then 20", IN_1("2,0,") LINE("102,201,0,9,1,0,") LINE("103,203,0,9,1,0,8")},
    {18, "7, then 18", IN_1("2,4,7") IN_1("2,0,-") LINE("102;202;0;9;1;0;")},
    {19, "7, then 19", IN_1("2,4,7") IN_1("2,4,-") OTHER_BOX("2,0,")},
    {20, "7, then 20", IN_1("2,4,7") IN_1("2,4,-") IN_1("2,0,9")},
    {0, NULL, NULL},
};
