/* Limits and dashes: windows that are there, and those that are none (20). */
#include "worked_sheets.h"

const struct worked_sheet WORKED_MARKS[] = {
    {20, "a dash on the first line", IN_2("3,0,-")},
    {20, "a dash on the first line, and a window later", IN_1("1,0,-") IN_1("2,4,8") IN_1("2,0,-")},
    {20, "a window of one step at the end", IN_2("3,0,5")},
    {19, "a window of one step, and another box", IN_2("3,0,5") LINE("102,7,0,1000000,3,0,")},
    {20, "a dash after nothing", IN_1("2,4,") IN_1("2,0,-")},
    {20, "a dash after two steps of nothing", IN_1("2,4,") IN_1("2,4,") IN_1("2,0,-")},
    {20, "a dash after another row's limit", IN_1("2,0,8") IN_2("3,0,-")},
    {20, "a dash after another row's dash", IN_1("2,4,8") IN_1("2,0,-") IN_2("3,0,-")},
    {20, "a dash after another row's nothing", IN_1("2,0,") IN_2("3,0,-")},
    {20, "a dash in row 2 after its own nothing", IN_1("2,4,8") IN_1("2,0,-") IN_2("3,4,")
        IN_2("3,0,-")},
    {20, "limit, dash, nothing, dash", IN_1("1,1,9") IN_1("1,1,-") IN_1("1,1,") IN_1("1,0,-")},
    {20, "limit, nothing", IN_1("2,4,8") IN_1("2,0,")},
    {20, "limit, nothing, dash", IN_1("2,4,8") IN_1("2,4,") IN_1("2,0,-")},
    {20, "limit, limit", IN_1("2,4,8") IN_1("2,0,9")},
    {20, "limit, limit, dash", IN_1("2,4,8") IN_1("2,4,9") IN_1("2,0,-")},
    {20, "limit, dash, limit", IN_1("2,4,8") IN_1("2,4,-") IN_1("2,0,9")},
    {20, "limit, then another row", IN_1("2,0,8") IN_2("3,0,")},
    {20, "limit, then another row's window", IN_1("2,0,8") IN_2("3,4,10") IN_2("3,0,-")},
    {0, "limit, dash", IN_1("2,4,8") IN_1("2,0,-")},
    {0, "limit, dash, dash", IN_1("2,4,99") IN_1("2,4,-") IN_1("2,0,-")},
    {0, "limit, dash, nothing", IN_1("2,4,99") IN_1("2,4,-") IN_1("2,0,")},
    {0, "nothing, limit, dash", IN_1("2,4,") IN_1("2,4,99") IN_1("2,0,-")},
    {0, "limit, dash, limit, dash", IN_1("1,2,4") IN_1("1,0,-") IN_1("1,3,9") IN_1("1,0,-")},
    {0, "limit, dash, nothing, limit, dash, dash", IN_1("1,2,9") IN_1("1,0,-") IN_1("1,5,")
        IN_1("1,3,9") IN_1("1,1,-") IN_1("1,0,-")},
    {0, "a window of all eight steps", IN_1("1,1,15") IN_1("1,1,-") IN_1("1,1,-") IN_1("1,1,-")
        IN_1("1,1,-") IN_1("1,1,-") IN_1("1,1,-") IN_1("1,0,-")},
    {7, "and its limit one less", IN_1("1,1,14") IN_1("1,1,-") IN_1("1,1,-") IN_1("1,1,-")
        IN_1("1,1,-") IN_1("1,1,-") IN_1("1,1,-") IN_1("1,0,-")},
    {0, "four windows", IN_1("1,1,3") IN_1("1,1,-") IN_1("1,1,3") IN_1("1,1,-")
        IN_1("1,1,3") IN_1("1,1,-") IN_1("1,1,3") IN_1("1,0,-")},
    {7, "the last of four windows one too short", IN_1("1,1,3") IN_1("1,1,-") IN_1("1,1,3")
        IN_1("1,1,-") IN_1("1,1,3") IN_1("1,1,-") IN_1("1,1,2") IN_1("1,0,-")},
    {7, "a limit below its chain", IN_1("2,4,7") IN_1("2,0,-")},
    {7, "a limit below the chain of three steps", IN_1("2,4,13") IN_1("2,4,-") IN_1("2,0,-")},
    {0, "a limit at the chain of three steps", IN_1("2,4,14") IN_1("2,4,-") IN_1("2,0,-")},
    {0, "a wait behind a window is not in its chain", IN_1("2,4,8") IN_1("2,50,-") IN_1("2,0,")},
    {0, "a wait before a window is not in its chain", IN_1("2,50,") IN_1("2,4,8") IN_1("2,0,-")},
    {7, "a limit below its chain in row 2", IN_1("1,0,") IN_2("2,4,7") IN_2("2,0,-")},
    {3, "a limit of 0", IN_1("2,4,0") IN_1("2,0,-")},
    {20, "a limit of 0 alone", IN_1("2,0,0")},
    {20, "a limit of 0 and nothing", IN_1("2,4,0") IN_1("2,0,")},
    {20, "a limit of 0 and another row", IN_1("2,0,0") IN_2("3,0,")},
    {3, "a limit of 0 and then a short one", IN_1("1,1,0") IN_1("1,1,-") IN_1("1,1,2")
        IN_1("1,0,-")},
    {7, "a short limit and then one of 0", IN_1("1,1,2") IN_1("1,1,-") IN_1("1,1,0")
        IN_1("1,0,-")},
    {0, "a limit of 65,535", IN_1("2,4,65535") IN_1("2,0,-")},
    {3, "a limit of 65,536", IN_1("2,4,65536") IN_1("2,0,-")},
    {0, NULL, NULL},
};
