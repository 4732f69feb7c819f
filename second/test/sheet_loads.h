/* Loads whose sheets have long numbers. */
#ifndef SHEET_LOADS_H
#define SHEET_LOADS_H

#include "random_load.h"

/* Gives the rows other identifiers and boxes, with every number of digits. */
void number_rows(struct dice *dice, struct load *load);

/* The load with the longest sheet, 9,528 bytes. */
struct load longest_load(void);

#endif
