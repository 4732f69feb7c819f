/* The trials' letters for checks, files and sheets: C, D, W, w, V, v, S, s, R, E and e
   (trials.h). */
#ifndef FILE_TRIALS_H
#define FILE_TRIALS_H

#include <stdbool.h>
#include <stdio.h>

/* False for another letter and for a bad question; no line is then written. */
bool answer_file_question(int letter, FILE *questions, FILE *answers);

#endif
