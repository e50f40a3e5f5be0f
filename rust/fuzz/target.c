/*
 * The fuzz target: one input through the checker and through the judge, which must agree.
 *
 * Input: byte 0 says the job (modulo 3: index, track, set) and at which end of its memory the slice
 * stands (by 3, modulo 2); bytes 1 and 2 are the table's length in numbers, big-endian, modulo 16,385;
 * the rest is the slice. The table holds 7 i + 1 at i before the call. A track goes through the form that
 * takes pieces too (pieces.c), with a memory that is spoilt if byte 0 by 6 is 3 modulo 4.
 *
 * If byte 0 by 24 is 10, a crowd of empty `free` boxes is put into the slice (crowd.c says where): rule 5's limit less
 * 64, and byte 2 modulo 64 more. The table's length of an index then counts from four numbers a box of the limit, less
 * 16,384, up: the longest is just enough for the limit.
 *
 * Slice and table each stand in memory of their own, at its end or at its start, with pages around
 * it that nobody may touch. So a read or a write outside ends the run, in an archive that no
 * sanitizer has seen too.
 */
#include <stdint.h>
#include <stdio.h>
#include <stdlib.h>
#include <string.h>

#include "crowd.h"
#include "flangemint.h"
#include "lent.h"
#include "pieces.h"
#include "target.h"

typedef void check(const uint8_t *data, size_t len, uint64_t *table, size_t room, uint64_t *verdict);

check judge_index, judge_track, judge_set;

enum { JOBS = 3, MOST_ROOM = FLANGEMINT_INDEX_ROOM, CANARY = 4 };

static const struct {
    const char *name;
    check *checker, *judge;
} jobs[JOBS] = {
    {"index", flangemint_index, judge_index},
    {"track", flangemint_track, judge_track},
    {"set", flangemint_set, judge_set},
};

static void tell(const char *who, const uint64_t *v, const uint64_t *table, size_t room)
{
    fprintf(stderr, "%s: number %llu track %llu place %llu count %llu timescale %llu; table sum %llu\n", who,
            (unsigned long long)v[0], (unsigned long long)v[1], (unsigned long long)v[2],
            (unsigned long long)v[3], (unsigned long long)v[4], (unsigned long long)table_sum(table, room));
}

static void disagree(const char *what, const char *job, size_t len, size_t room, const uint64_t *v,
                     const uint64_t *table, const uint64_t *w, const uint64_t *other)
{
    fprintf(stderr, "DISAGREEMENT in %s: %s, %zu bytes, room %zu\n", what, job, len, room);
    tell("checker", v, table, room);
    tell("judge", w, other, room);
    for (size_t i = 0; i < room; i++)
        if (table[i] != other[i]) {
            fprintf(stderr, "table[%zu]: checker %llu, judge %llu\n", i, (unsigned long long)table[i],
                    (unsigned long long)other[i]);
            break;
        }
    abort();
}

uint64_t table_sum(const uint64_t *table, size_t room)
{
    unsigned __int128 sum = 0;
    for (size_t i = 0; i < room; i++)
        sum = (31 * sum + table[i]) % 1000000007u;
    return (uint64_t)sum;
}

int split_input(const uint8_t *input, size_t size, struct split *split)
{
    if (size < HEAD || size - HEAD > MOST_OWN)
        return 0;
    split->job = input[0] % JOBS;
    split->at_end = input[0] / JOBS % 2 == 0;
    split->spoilt = input[0] / (2 * JOBS) % 4 == 3;
    split->room = (input[1] * 256u + input[2]) % (OWN_ROOM + 1);
    split->slice = input + HEAD;
    split->len = size - HEAD;
    if (input[0] >= CROWDED) {
        put_crowd(split, FLANGEMINT_MAX_BOXES - CROWD_SPAN + input[2] % CROWD_SPAN);
        split->room += split->job == 0 ? MOST_ROOM - OWN_ROOM : 0;
    }
    return 1;
}

const uint64_t *judged(const struct split *s, uint64_t verdict[5])
{
    static uint64_t table[MOST_ROOM];
    for (size_t i = 0; i < s->room; i++)
        table[i] = 7 * i + 1;
    jobs[s->job].judge(s->slice, s->len, table, s->room, verdict);
    return table;
}

int LLVMFuzzerTestOneInput(const uint8_t *input, size_t size)
{
    static struct lent bytes, numbers;
    if (bytes.start == NULL) {
        bytes = lend(MOST_BYTES);
        numbers = lend(MOST_ROOM * sizeof(uint64_t));
    }
    struct split s;
    if (!split_input(input, size, &s))
        return 0;

    uint64_t expected[5];
    const uint64_t *other = judged(&s, expected);

    uint8_t *slice = part(bytes, s.len, s.at_end);
    memcpy(slice, s.slice, s.len);
    uint64_t *table = (uint64_t *)part(numbers, s.room * sizeof(uint64_t), s.at_end);
    for (size_t i = 0; i < s.room; i++)
        table[i] = 7 * i + 1;
    uint64_t around[CANARY + 5 + CANARY];
    memset(around, 0xa5, sizeof around);
    uint64_t *verdict = around + CANARY;

    jobs[s.job].checker(slice, s.len, table, s.room, verdict);

    const char *name = jobs[s.job].name;
    if (memcmp(verdict, expected, sizeof expected) != 0)
        disagree("the verdict", name, s.len, s.room, verdict, table, expected, other);
    if (memcmp(table, other, s.room * sizeof(uint64_t)) != 0)
        disagree("the table", name, s.len, s.room, verdict, table, expected, other);
    if (memcmp(slice, s.slice, s.len) != 0)
        disagree("the lent bytes", name, s.len, s.room, verdict, table, expected, other);
    for (size_t i = 0; i < CANARY; i++)
        if (around[i] != 0xa5a5a5a5a5a5a5a5u || verdict[5 + i] != 0xa5a5a5a5a5a5a5a5u)
            disagree("what stands around the verdict", name, s.len, s.room, verdict, table, expected, other);
    if (s.job == 1)
        try_pieces(&s);
    return 0;
}
