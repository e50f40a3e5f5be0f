/*
 * Rule 1, which no input of the fuzz target is long enough for: slices of 2^30 and of 2^30 + 1 bytes.
 *
 *   long INPUT      the input's slice is a good track
 *
 * For each length and each job, and for a track in pieces: bytes that are all 0; one `free` box as long as the slice;
 * the track and a `free` box after it up to the end, alone and as the one record of a bundle. Only what is read takes
 * memory.
 */
#include <stdint.h>
#include <stdio.h>
#include <stdlib.h>
#include <string.h>
#include <sys/mman.h>

#include "flangemint.h"
#include "pieces.h"
#include "target.h"

typedef void check(const uint8_t *data, size_t len, uint64_t *table, size_t room, uint64_t *verdict);
check judge_index, judge_track, judge_set;

enum { ROOM = 256, MOST = 1 << 16, SHAPES = 4 };

static const struct {
    const char *name;
    check *checker, *judge;
} jobs[3] = {
    {"index", flangemint_index, judge_index},
    {"track", flangemint_track, judge_track},
    {"set", flangemint_set, judge_set},
};

static const char *const shapes[SHAPES] = {"zeros", "one box", "track and box", "bundle"};

static void put4(uint8_t *at, uint64_t n)
{
    for (int i = 4; i-- > 0; n >>= 8)
        at[i] = (uint8_t)n;
}

/* Writes the front of the slice; what is after it is 0. */
static void shape(int which, uint8_t *slice, size_t len, const uint8_t *track, size_t track_len)
{
    memset(slice, 0, 2 * MOST);
    uint8_t *at = slice;
    if (which == 0)
        return;
    if (which == 3) {
        memcpy(at, "SW", 2);
        put4(at + 2, len - 6);
        at += 6;
    }
    if (which >= 2) {
        memcpy(at, track, track_len);
        at += track_len;
    }
    put4(at, len - (size_t)(at - slice));
    memcpy(at + 4, "free", 4);
}

static int differ(const char *job, const char *shape, const uint8_t *slice, size_t len, check *checker, check *judge)
{
    uint64_t v[2][5], table[2][ROOM];
    for (int who = 0; who < 2; who++) {
        for (size_t i = 0; i < ROOM; i++)
            table[who][i] = 7 * i + 1;
        (who == 0 ? checker : judge)(slice, len, table[who], ROOM, v[who]);
    }
    int other = memcmp(v[0], v[1], sizeof v[0]) != 0 || memcmp(table[0], table[1], sizeof table[0]) != 0;
    printf("%s, %s of %zu bytes: number %llu place %llu count %llu%s\n", job, shape, len, (unsigned long long)v[0][0],
           (unsigned long long)v[0][2], (unsigned long long)v[0][3], other ? ", DISAGREEMENT" : "");
    return other;
}

static int differ_in_pieces(const char *shape, const uint8_t *slice, size_t len)
{
    static uint8_t head[HEADER], kept[KEPT];
    uint64_t numbers[NUMBERS], answer[ANSWER], whole[ANSWER];
    flangemint_pieces_begin(numbers);
    for (size_t at = 0, length; at < len; at += length) {
        length = len - at < 1 << 20 ? len - at : 1 << 20;
        flangemint_pieces_take(numbers, head, kept, slice + at, length);
    }
    flangemint_pieces_take(numbers, head, kept, slice, 0);
    flangemint_pieces_answer(numbers, head, kept, answer);
    judge_pieces_whole(slice, len, whole);
    int other = memcmp(answer, whole, sizeof whole) != 0;
    printf("pieces, %s of %zu bytes: number %llu place %llu count %llu%s\n", shape, len, (unsigned long long)answer[0],
           (unsigned long long)answer[2], (unsigned long long)answer[3], other ? ", DISAGREEMENT" : "");
    return other;
}

int main(int count, char **words)
{
    static uint8_t input[HEAD + MOST];
    FILE *file = count == 2 ? fopen(words[1], "rb") : NULL;
    if (file == NULL) {
        fprintf(stderr, "usage: long INPUT\n");
        return 2;
    }
    size_t size = fread(input, 1, sizeof input, file);
    fclose(file);
    struct split track;
    if (!split_input(input, size, &track))
        return 2;

    const size_t limit = (size_t)1 << 30;
    uint8_t *slice = mmap(NULL, limit + 1, PROT_READ | PROT_WRITE, MAP_PRIVATE | MAP_ANONYMOUS | MAP_NORESERVE, -1, 0);
    if (slice == MAP_FAILED) {
        perror("memory");
        return 2;
    }
    int differences = 0;
    for (size_t len = limit; len <= limit + 1; len++)
        for (int which = 0; which < SHAPES; which++) {
            shape(which, slice, len, track.slice, track.len);
            for (int job = 0; job < 3; job++)
                differences += differ(jobs[job].name, shapes[which], slice, len, jobs[job].checker, jobs[job].judge);
            differences += differ_in_pieces(shapes[which], slice, len);
        }
    return differences == 0 ? 0 : 1;
}
