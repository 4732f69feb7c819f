/* The lamps: a word with one bit for each row, and how many of them are on. */
#ifndef LAMPS_H
#define LAMPS_H

#include "bench.h"

/* Bit 0 is row 1: on where the row has an open window. */
uint32_t lamps_of(const struct load *load, const struct bench *state);

uint32_t ones_of(uint32_t word);

#endif
