/* Route sheets with the number that reading them gives, worked by hand, for the cases and for the
   trials. */
#ifndef WORKED_SHEETS_H
#define WORKED_SHEETS_H

#include <stddef.h>

struct worked_sheet {
    int number;
    const char *what;
    const char *text;
};

/* Each list ends with a sheet without text. */
extern const struct worked_sheet WORKED_LINES[];
extern const struct worked_sheet WORKED_ORDERS[];
extern const struct worked_sheet WORKED_MARKS[];
extern const struct worked_sheet WORKED_RANGES[];
extern const struct worked_sheet WORKED_WIDE[];
extern const struct worked_sheet WORKED_COUNTS[];
extern const struct worked_sheet WORKED_FACTORY[];

/* All of these lists, and behind them none. */
extern const struct worked_sheet *const WORKED_SHEETS[];

/* A line, and what stands before the cost in the lines of two rows. */
#define LINE(text) text "\r\n"
#define IN_1(step) LINE("101,201,0,1000000," step)
#define IN_2(step) LINE("102,202,0,1000000," step)

#define SHEET_OF_B IN_1("2,4,8") IN_1("2,0,-") IN_2("3,0,") \
    LINE("103,203,0,1000000,2,1,6") LINE("103,203,0,1000000,1,0,-")
#define SHEET_OF_A LINE("101,201,0,20,2,10,") LINE("101,201,0,20,3,0,") \
    LINE("102,202,0,19,1,4,") LINE("102,202,0,19,2,0,") \
    LINE("103,203,0,18,2,3,") LINE("103,203,0,18,1,0,")

/* Rows of one line, with a number for identifier and box. */
#define ROW(number) LINE(#number "," #number ",0,9,1,0,")
#define ROWS_23 ROW(1) ROW(2) ROW(3) ROW(4) ROW(5) ROW(6) ROW(7) ROW(8) ROW(9) ROW(10) ROW(11) \
    ROW(12) ROW(13) ROW(14) ROW(15) ROW(16) ROW(17) ROW(18) ROW(19) ROW(20) ROW(21) ROW(22) ROW(23)

#endif
