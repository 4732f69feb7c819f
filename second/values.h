/* A load file laid open: its records in hex, one a line, then every number computed from it. */
#ifndef VALUES_H
#define VALUES_H

#include <stddef.h>
#include <stdint.h>
#include <stdio.h>

void print_values(FILE *out, const uint8_t *bytes, size_t length);

/* The bound's terms, one a line: `costs N`, `phase N`, `embedded N`, and for each place up to the
   longest row's last but one `place J W N row ROW of W...`: its largest W and the row that has it,
   then W row by row, `-` where the wait is not free. */
void print_terms(FILE *out, const uint8_t *bytes, size_t length);

#endif
