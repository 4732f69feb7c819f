/* What a load's files must keep, whatever its numbers are. */
#ifndef FILE_FAULT_H
#define FILE_FAULT_H

#include "random_load.h"

/* What the files of a good load, of spoiled ones made of it, and of any bytes do not keep; or
   null. */
const char *file_fault(struct dice *dice, const struct load *load);

#endif
