/* One form turned into another: rows as text, load files, route sheets, schedule files. Each reads
   the first stream, writes the second, and gives the program's exit status. Where that is not 0
   nothing is written, and standard error says why. */
#ifndef CONVERSION_H
#define CONVERSION_H

#include <stdio.h>

#include "load_file.h"

enum { GOOD = 0, REFUSED = 1, CANNOT = 2 };

/* One byte more than a load file can have: a longer input is then refused like any other. */
struct load_input {
    size_t length;
    uint8_t bytes[MOST_LOAD_BYTES + 1];
};

/* A failed read counts as the input's end. */
void take_input(FILE *file, struct load_input *input);

/* Says what cannot be done, and gives that status. */
int cannot(const char *what);

/* Any row in the notation that a file of this version can carry, unchecked; else CANNOT. */
int write_load_of_text(FILE *text, enum version version, FILE *load);

/* A file of version 1. REFUSED, or CANNOT for a sheet of more than 65,536 bytes: it would have to
   be read to its end for its number, and no sheet of a load is nearly as long. */
int write_load_of_sheet(FILE *sheet, FILE *load);

/* REFUSED, a load file with a class too. */
int write_sheet_of_load(FILE *load, FILE *sheet);

/* CANNOT for a refused file. */
int write_schedule_of_load(FILE *load, FILE *schedule);

#endif
