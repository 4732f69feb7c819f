/* The table of numbers, case by case. Each expected number follows from the document's text
   and its agreed readings, not from what the program gave. */
#ifndef CASES_H
#define CASES_H

#include "load.h"

struct tally {
    unsigned passed;
    unsigned failed;
};

void same(struct tally *tally, const char *what, long wanted, long found);

/* Load B of the document: two windows and a row between them. */
struct load load_b(void);

/* Load A of the document, and the same with classes 0, 0 and 3. */
struct load load_a(void);
struct load urgent_a(void);

/* One row: 1 w2 1 w0 1 w3 1, windows 1 to 2 (limit 4) and 3 to 4 (limit 9), phase 5,
   deadline 100. */
struct load load_two_windows(void);

void load_cases(struct tally *tally);
void factory_cases(struct tally *tally);
void urgent_cases(struct tally *tally);
void version_cases(struct tally *tally);
void turn_cases(struct tally *tally);
void sheet_cases(struct tally *tally);
void bench_cases(struct tally *tally);
void bound_cases(struct tally *tally);
void blame_cases(struct tally *tally);
void schedule_cases(struct tally *tally);
void call_cases(struct tally *tally);

#endif
