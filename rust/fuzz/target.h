#ifndef TARGET_H
#define TARGET_H

#include <stddef.h>
#include <stdint.h>

#include "flangemint.h"

/* Bytes of an input before the slice; a byte 0 from CROWDED up puts a crowd into it. */
enum { HEAD = 3, CROWDED = 240 };

/* Bytes of a slice, and how many of them may be the input's own. */
enum { MOST_OWN = 1 << 20, MOST_BYTES = MOST_OWN + 8 * FLANGEMINT_MAX_BOXES };

/* The longest table that an input can ask for without a crowd, in numbers. */
enum { OWN_ROOM = 16384 };

/* A crowd lacks 1 to so many boxes of rule 5's limit. */
enum { CROWD_SPAN = 64 };

struct split {
    unsigned job;
    int at_end;
    int spoilt; /* the memory of a track in pieces */
    size_t room;
    const uint8_t *slice;
    size_t len;
};

/* Takes an input apart; 0 where it is too short or too long. The slice is good until the next call. */
int split_input(const uint8_t *input, size_t size, struct split *split);

/* The judge's verdict, and its table after the call. */
const uint64_t *judged(const struct split *split, uint64_t verdict[5]);

/* The sum over a table that rust/vectors has. */
uint64_t table_sum(const uint64_t *table, size_t room);

#endif
