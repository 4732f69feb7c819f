/* What questions lend, written as the trials take it (trials.h). */
#ifndef QUESTION_PARTS_H
#define QUESTION_PARTS_H

#include "asked.h"

void write_1(FILE *out, unsigned number);
void write_2(FILE *out, unsigned number);
void write_4(FILE *out, uint32_t number);
void write_file(FILE *out, const struct asked_file *file);
void write_slots(FILE *out, const struct asked_slots *list);
void write_state(FILE *out, const struct bench *state);

/* Every place of the load, used or not. */
void write_load_places(FILE *out, const struct load *load);

#endif
