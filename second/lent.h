/* What a caller lends besides a load, as text: slot lists for the check, states for a move. */
#ifndef LENT_H
#define LENT_H

#include <stdio.h>

#include "schedule.h"

/* Reads the lines `slot START ROW STEP`; other lines are skipped, so a report can be given
   as it is. Gives the number of slots, at most `room`, or -1 when a slot line is malformed. */
int read_slots(FILE *text, struct slot *slots, unsigned room);

/* Reads CLOCK and then FINISHED END OPENING for each row, blanks or line ends between them.
   Numbers not there are 0, so empty text is the fresh bench. False when something else stands
   there. */
bool read_state(FILE *text, struct bench *state);

/* Two lines: the number, the outcome (`start START ROW STEP`, `idle`, `done`, or `refused`),
   `lamps WORD COUNT`; then the state handed back, as read_state reads it, all 24 rows. */
void print_move(FILE *out, const struct move *move);

#endif
