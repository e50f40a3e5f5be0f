/*
 * Between inputs of the fuzz target and the cases of rust/vectors.
 *
 *   cases split DIR < cases.bin                     one input a case
 *   cases join INPUT... > cases.bin 2> expected.txt
 *
 * What is long is left out, either way: a table over 4,096 numbers, a slice over 65,536 bytes, an input with a crowd,
 * a case with boxes before it. A case that is left out keeps its number.
 */
#include <stdint.h>
#include <stdio.h>
#include <stdlib.h>
#include <string.h>

#include "flangemint.h"
#include "target.h"

/* A track for the program `stream`; here it is a track like any other. */
enum { STREAM = 4 };

/* Bytes that stand before the next case's, with as many `free` boxes behind them as the room says: no case itself. */
enum { BEFORE = 5 };

enum { CASE_ROOM = 4096, CASE_BYTES = 65536, CASE_HEAD = 9 };

/* No case is longer. */
enum { LONG_ROOM = FLANGEMINT_INDEX_ROOM, LONG_BYTES = 8 * FLANGEMINT_MAX_BOXES + CASE_BYTES };

static uint8_t bytes[HEAD + LONG_BYTES + 1];

static _Noreturn void stop(const char *what)
{
    perror(what);
    exit(1);
}

static void put4(uint8_t *at, uint32_t n)
{
    for (int i = 4; i-- > 0; n >>= 8)
        at[i] = (uint8_t)n;
}

static uint32_t get4(const uint8_t *at)
{
    return (uint32_t)at[0] << 24 | (uint32_t)at[1] << 16 | (uint32_t)at[2] << 8 | at[3];
}

/* Writes the input whose slice stands in `bytes`. */
static void write_input(const char *dir, unsigned number, unsigned job, uint32_t room, uint32_t len)
{
    bytes[0] = (uint8_t)(job + 3 * (number % 2));
    bytes[1] = (uint8_t)(room >> 8);
    bytes[2] = (uint8_t)room;
    char name[4096];
    snprintf(name, sizeof name, "%s/case-%04u", dir, number);
    FILE *file = fopen(name, "wb");
    if (file == NULL || fwrite(bytes, 1, HEAD + len, file) != HEAD + len || fclose(file) != 0)
        stop(name);
}

static int split(const char *dir)
{
    uint8_t head[CASE_HEAD];
    int before = 0;
    for (unsigned number = 0; fread(head, 1, CASE_HEAD, stdin) == CASE_HEAD;) {
        unsigned job = head[0] == STREAM ? 1 : head[0];
        uint32_t room = get4(head + 1), len = get4(head + 5);
        if ((job > 2 && job != BEFORE) || room > LONG_ROOM || len > LONG_BYTES ||
            fread(bytes + HEAD, 1, len, stdin) != len) {
            fprintf(stderr, "case %u is no case\n", number);
            return 1;
        }
        if (job != BEFORE && !before && room <= CASE_ROOM && len <= CASE_BYTES)
            write_input(dir, number, job, room, len);
        before = job == BEFORE;
        number += !before;
    }
    return 0;
}

static void join(const char *name)
{
    FILE *file = fopen(name, "rb");
    if (file == NULL)
        stop(name);
    size_t size = fread(bytes, 1, sizeof bytes, file);
    fclose(file);
    struct split s;
    if (!split_input(bytes, size, &s) || bytes[0] >= CROWDED || s.room > CASE_ROOM || s.len > CASE_BYTES)
        return;
    uint8_t head[CASE_HEAD] = {(uint8_t)s.job};
    put4(head + 1, (uint32_t)s.room);
    put4(head + 5, (uint32_t)s.len);
    if (fwrite(head, 1, CASE_HEAD, stdout) != CASE_HEAD || fwrite(s.slice, 1, s.len, stdout) != s.len)
        stop("standard output");
    uint64_t v[5];
    const uint64_t *table = judged(&s, v);
    fprintf(stderr, "%u", s.job);
    for (int i = 0; i < 5; i++)
        fprintf(stderr, " %llu", (unsigned long long)v[i]);
    fprintf(stderr, " %llu\n", (unsigned long long)table_sum(table, s.room));
}

int main(int count, char **words)
{
    if (count == 3 && strcmp(words[1], "split") == 0)
        return split(words[2]);
    if (count < 3 || strcmp(words[1], "join") != 0) {
        fprintf(stderr, "usage: cases split DIR < cases.bin\n       cases join INPUT... > cases.bin 2> expected.txt\n");
        return 2;
    }
    for (int i = 2; i < count; i++)
        join(words[i]);
    return 0;
}
