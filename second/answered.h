/* A trial's answer, where it is not the report's lines; trials.h says how each is written. */
#ifndef ANSWERED_H
#define ANSWERED_H

#include "asked.h"

void print_move_of(FILE *answers, const struct load *load, struct bench state);
void print_check_of(FILE *answers, const struct load *load, const struct asked_slots *list);

/* The number, and where it is 0 so many bytes. */
void print_written(FILE *answers, const char *what, enum refusal refusal, const uint8_t *bytes,
                   size_t length);

/* The number, the length told, and all of the room's bytes, also where the number is not 0. */
void print_room(FILE *answers, const char *what, enum refusal refusal, size_t written,
                const struct asked_room *room);

/* Every largest W and every blame on one line, those of rows not there too. */
void print_places(FILE *answers, const uint8_t *bytes, size_t length);

/* The same of a load in memory, and every margin behind them. */
void print_places_of(FILE *answers, const struct load *load);

#endif
