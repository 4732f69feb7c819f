/* What must hold of the blames of every good load. */
#ifndef BLAME_FAULT_H
#define BLAME_FAULT_H

#include "bound.h"

/* The demand that a good load's blames fail, or null. */
const char *blame_fault(const struct load *load);

#endif
