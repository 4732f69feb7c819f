/* Loads written by hand: a small text notation to a load file's bytes, with no check at all,
   so that faulty files can be made as well as good ones.

   One line a row:

       ID BOX PHASE DEADLINE : COST wWAIT COST ... : FIRST-LAST<=LIMIT ... : CLASS HEAD

   A wait follows its step; a wait not written is 0. The third colon may be left out, and stands
   for class 0 and head 1 then; so may the second when there are no windows and no third. Empty
   lines and lines that begin with # are skipped. The counts of rows, steps and windows are those
   of the text. Any number is taken that fits its field's bytes: cost 601, wait 3601, equal
   identifiers, limit 0, a wait after the last step, a row without steps, 25 rows; in version 2
   class 4 and head 0, but in version 1, which has no bytes for them, class 0 and head 1 alone.
   Load B:

       101 201 0 1000000 : 2 w4 2 : 1-2<=8
       102 202 0 1000000 : 3
       103 203 0 1000000 : 2 w1 1 : 1-2<=6
*/
#ifndef NOTATION_H
#define NOTATION_H

#include <stdio.h>

#include "load_file.h"

/* Gives 0, or the number of the first line that is not in the notation, that this version cannot
   carry or that finds no room. */
unsigned long write_notation(FILE *text, enum version version, uint8_t *bytes, size_t room,
                             size_t *written);

#endif
