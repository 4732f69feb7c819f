/* Route sheets (2026-02): a load as comma-separated lines, one a step, read (18, 19, 20, then 3 for
   too many rows, then 3, 21, 4, 5, 7) and written (3 to 7 or 21, then 22, then 9). A sheet has no
   class and no head: its rows are read as class 0 and head 1.

   A line is IDENTIFIER,BOX,PHASE,DEADLINE,COST,WAIT,LIMIT and CR LF. The limit stands on a window's
   first step, `-` on its other steps, nothing elsewhere. Load B:

       101,201,0,1000000,2,4,8
       101,201,0,1000000,2,0,-
       102,202,0,1000000,3,0,
       103,203,0,1000000,2,1,6
       103,203,0,1000000,1,0,-
*/
#ifndef SHEET_H
#define SHEET_H

#include <stddef.h>

#include "load.h"

/* The longest sheet: every number has all the digits that its range lets it have, the last wait of
   a row being 0, and half of the steps have a limit and the other half a dash. */
enum {
    MOST_SIGNS = (10 + 1) + (10 + 1) + (5 + 1) + (7 + 1) + (3 + 1) + (4 + 1) + 2,
    MOST_SHEET_BYTES = MOST_ROWS * (MOST_STEPS * MOST_SIGNS - (4 - 1) + MOST_WINDOWS * (5 + 1))
};

/* A refused sheet gives the all-zero load. */
enum refusal read_sheet(const uint8_t *bytes, size_t length, struct load *load);

/* On a refusal no byte is written and `written` is 0; bytes past the sheet stay. */
enum refusal write_sheet(const struct load *load, uint8_t *bytes, size_t room, size_t *written);

/* A load's lines without its check, for a load whose counts fit its places; gives the place after
   them, where a zero stands. */
uint8_t *put_sheet(uint8_t *at, const struct load *load);

#endif
