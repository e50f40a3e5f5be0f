#ifndef CROWD_H
#define CROWD_H

#include <stddef.h>

#include "target.h"

/* Puts so many empty `free` boxes into the slice, which then stands in other memory, until the next call. */
void put_crowd(struct split *split, size_t boxes);

#endif
