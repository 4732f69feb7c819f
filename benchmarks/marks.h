/* Counts instructions from inside a program that the emulator runs with instruction_count.c as its
   plugin. */
#ifndef MARKS_H
#define MARKS_H

#include <stdbool.h>
#include <stdint.h>

/* The plugin's answers come through a pipe of the program's own. */
struct marks {
    int told;
    int asks;
    uint64_t own; /* the instructions between two marks with nothing between them */
};

/* False where nothing counts: there is no such plugin, or no pipe to be had. */
bool open_marks(struct marks *marks);

/* The instructions since the last mark, without the marks' own. */
uint64_t mark(const struct marks *marks);

#endif
