#ifndef PIECES_H
#define PIECES_H

#include <stddef.h>
#include <stdint.h>

#include "flangemint.h"
#include "target.h"

enum { NUMBERS = 24, HEADER = 16, KEPT = FLANGEMINT_MAX_GATHERED, ANSWER = 7 };

/* The judge's answer from the joined bytes, and its own form that takes pieces. */
void judge_pieces_whole(const uint8_t *data, size_t len, uint64_t *answer);
void *judge_pieces_begin(void);
void judge_pieces_take(void *form, const uint8_t *data, size_t len);
void judge_pieces_end(void *form, uint64_t *answer);

/* The slice of an input in pieces: the exported form and the judge must agree; with a spoilt memory nothing may fault. */
void try_pieces(const struct split *split);

#endif
