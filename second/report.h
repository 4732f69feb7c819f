/* What is printed for a load file. */
#ifndef REPORT_H
#define REPORT_H

#include <stdio.h>

#include "load_file.h"

/* The lines of the first program: load, rows, slots; or `refused` and the number. */
void print_report(FILE *out, const uint8_t *bytes, size_t length);

/* Those of the program that blames: the same, with its blame's place and row behind each row
   line. */
void print_blame(FILE *out, const uint8_t *bytes, size_t length);

/* The same answers on one line, for comparing many files:
   NUMBER, and where it is 0:
   ` bound N verdict yes|no margins N... end N slots START,ROW,STEP...` */
void print_answers(FILE *out, const uint8_t *bytes, size_t length);

#endif
