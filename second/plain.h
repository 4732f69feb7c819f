/* What version 1 of the load file and route sheets can carry (2026-05): no class and no head, so
   that every row of theirs is of class 0 and head 1. */
#ifndef PLAIN_H
#define PLAIN_H

#include "load.h"

bool is_plain_row(const struct row *row);

/* Whether all the rows that it has are. */
bool is_plain(const struct load *load);

/* For writing in such a form: the load's own numbers (3 to 7 or 21), all of them, and only then 22
   where some row is not plain. A head other than 1 is out of range, so that 22 is never given for
   it so far. */
enum refusal check_plain(const struct load *load);

#endif
