/*
 * A crowd of empty `free` boxes, so that a short input reaches rule 5's limit. It stands behind the slice's first box,
 * or at its start if that is no box with a short header. In a set it stands so in the track of the last record, whose
 * length counts it; if there is no record, at the start of the bundle.
 */
#include "crowd.h"

#include <stdint.h>
#include <string.h>

enum { BOX = 8, MARK = 2, MARK_AND_LENGTH = 6, SET = 2 };

static uint32_t get4(const uint8_t *at)
{
    return (uint32_t)at[0] << 24 | (uint32_t)at[1] << 16 | (uint32_t)at[2] << 8 | at[3];
}

static void put4(uint8_t *at, uint32_t n)
{
    for (int i = 4; i-- > 0; n >>= 8)
        at[i] = (uint8_t)n;
}

/* Where the last record starts whose bytes are all there; the bundle's length if there is none. */
static size_t last_record(const uint8_t *bundle, size_t len)
{
    size_t last = len;
    for (size_t at = 0; len - at >= MARK_AND_LENGTH;) {
        size_t length = get4(bundle + at + MARK);
        if (length > len - at - MARK_AND_LENGTH)
            break;
        last = at;
        at += MARK_AND_LENGTH + length;
    }
    return last;
}

/* The end of the first box of a track, else 0. */
static size_t behind_first(const uint8_t *track, size_t len)
{
    size_t size = len < BOX ? 0 : get4(track);
    return size >= BOX && size <= len ? size : 0;
}

static size_t place(const struct split *s, size_t record)
{
    if (s->job != SET)
        return behind_first(s->slice, s->len);
    if (record == s->len)
        return 0;
    size_t track = record + MARK_AND_LENGTH;
    return track + behind_first(s->slice + track, get4(s->slice + record + MARK));
}

void put_crowd(struct split *s, size_t boxes)
{
    static uint8_t crowded[MOST_BYTES];
    size_t record = s->job == SET ? last_record(s->slice, s->len) : s->len, at = place(s, record);
    memcpy(crowded, s->slice, at);
    for (size_t i = 0; i < boxes; i++)
        memcpy(crowded + at + BOX * i, "\0\0\0\bfree", BOX);
    memcpy(crowded + at + BOX * boxes, s->slice + at, s->len - at);
    if (record < s->len)
        put4(crowded + record + MARK, get4(crowded + record + MARK) + (uint32_t)(BOX * boxes));
    s->slice = crowded;
    s->len += BOX * boxes;
}
