/*
 * A track in pieces. The number that is the table's length in the track check says here how the slice is cut: its
 * remainder by 4 the way, the rest of it where or how long. The three arrays stand between pages that may not be
 * touched, and so does each piece. A long slice is not cut into very short ones, since they would take their time.
 */
#include "pieces.h"

#include <stdio.h>
#include <stdlib.h>
#include <string.h>

#include "lent.h"

static struct {
    struct lent numbers, head, kept, piece;
} memory;

enum { LONG = 100000, NOT_SHORT = 64 };

struct cut {
    unsigned way;
    size_t n, more; /* `more` makes each of many pieces longer */
    uint64_t state;
};

static uint64_t draw(struct cut *cut, uint64_t below)
{
    cut->state ^= cut->state << 13;
    cut->state ^= cut->state >> 7;
    cut->state ^= cut->state << 17;
    return (cut->state >> 11) % below;
}

static struct cut cut_by(const struct split *s)
{
    return (struct cut){s->room % 4, s->room / 4, s->len > LONG ? NOT_SHORT : 0, s->room * 0x9e3779b97f4a7c15u + 1};
}

/* The length of the next piece. */
static size_t next(struct cut *cut, size_t left)
{
    size_t length = left;
    if (cut->way == 1) {
        length = cut->n % (left + 1);
        cut->way = 0;
    } else if (cut->way == 2) {
        length = cut->more + 1 + cut->n % 40;
    } else if (cut->way == 3) {
        length = cut->more + draw(cut, (size_t)2 << cut->n % 12);
    }
    return length < left ? length : left;
}

static void tell(const char *who, const uint64_t *answer)
{
    fprintf(stderr, "%s:", who);
    for (int i = 0; i < ANSWER; i++)
        fprintf(stderr, " %llu", (unsigned long long)answer[i]);
    fprintf(stderr, "\n");
}

static void compare(const char *what, const struct split *s, const uint64_t *answer, const uint64_t *expected)
{
    if (memcmp(answer, expected, ANSWER * sizeof *answer) == 0)
        return;
    fprintf(stderr, "DISAGREEMENT in %s: pieces, %zu bytes, cut %zu\n", what, s->len, s->room);
    tell("checker", answer);
    tell("judge", expected);
    abort();
}

/* Another value for one of the numbers: near the old, a small one, or what stands in the slice. */
static void spoil(uint64_t *numbers, const struct split *s, struct cut *cut)
{
    uint64_t *number = numbers + draw(cut, NUMBERS);
    switch (draw(cut, 5)) {
    case 0: *number += 1; break;
    case 1: *number -= 1; break;
    case 2: *number = draw(cut, 10); break;
    case 3: *number = numbers[draw(cut, NUMBERS)]; break;
    default:
        if (s->len >= sizeof *number)
            memcpy(number, s->slice + draw(cut, s->len - sizeof *number + 1), sizeof *number);
    }
}

void try_pieces(const struct split *s)
{
    if (memory.piece.start == NULL) {
        memory.numbers = lend(NUMBERS * sizeof(uint64_t));
        memory.head = lend(HEADER);
        memory.kept = lend(KEPT);
        memory.piece = lend(MOST_BYTES);
    }
    uint64_t *numbers = (uint64_t *)part(memory.numbers, NUMBERS * sizeof(uint64_t), s->at_end);
    uint8_t *head = part(memory.head, HEADER, s->at_end), *kept = part(memory.kept, KEPT, s->at_end);
    memset(numbers, 0xa5, NUMBERS * sizeof(uint64_t));
    memset(head, 0xa5, HEADER);
    memset(kept, 0xa5, KEPT);
    struct cut cut = cut_by(s), other = {0, 0, 0, s->room + 1};
    void *form = judge_pieces_begin();
    if (!s->spoilt || s->room % 7 != 0)
        flangemint_pieces_begin(numbers);
    for (size_t at = 0, length; at < s->len; at += length) {
        length = next(&cut, s->len - at);
        uint8_t *piece = part(memory.piece, length, s->at_end);
        memcpy(piece, s->slice + at, length);
        if (s->spoilt && draw(&other, 4) == 0)
            spoil(numbers, s, &other);
        flangemint_pieces_take(numbers, head, kept, piece, length);
        if (memcmp(piece, s->slice + at, length) != 0) {
            fprintf(stderr, "DISAGREEMENT in the piece, which was written to\n");
            abort();
        }
        judge_pieces_take(form, piece, length);
    }
    uint64_t answer[ANSWER], own[ANSWER], whole[ANSWER];
    flangemint_pieces_answer(numbers, head, kept, answer);
    judge_pieces_end(form, own);
    judge_pieces_whole(s->slice, s->len, whole);
    compare("the judge itself", s, own, whole);
    if (!s->spoilt)
        compare("the answer", s, answer, whole);
}
