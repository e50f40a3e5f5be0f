/*
 * stream [FILE]: judges one track in pieces, from the file or from standard input, and prints the verdict with the
 * first and the last boundary. The memory that it takes does not grow with the track.
 * Ends with 0 where it is accepted, 1 where it is refused, 2 where it was not judged.
 */
#include <errno.h>
#include <stdio.h>
#include <string.h>
#include "flangemint.h"

/* Feeds a file to its end; past FLANGEMINT_MAX_BYTES the answer no longer changes. 0 where it can't be read. */
static int feed_file(struct flangemint_pieces *pieces, FILE *file) {
    static uint8_t piece[65536];
    size_t got, sum = 0;
    do {
        got = fread(piece, 1, sizeof piece, file);
        flangemint_pieces_feed(pieces, piece, got);
        sum += got;
    } while (got > 0 && sum <= FLANGEMINT_MAX_BYTES);
    return !ferror(file);
}

/* Prints the answer about a track of this name. */
static void print_answer(struct flangemint_answer a, const char *name) {
    struct flangemint_verdict v = a.verdict;
    if (v.number != FLANGEMINT_ACCEPTED) {
        printf("refused %llu track %llu at %llu\n", (unsigned long long)v.number, (unsigned long long)v.track,
               (unsigned long long)v.place);
        printf("%s: %s\n", name, flangemint_sentence(v.number));
        return;
    }
    printf("accepted tracks 1 fragments %llu timescale %llu\n", (unsigned long long)v.count,
           (unsigned long long)v.timescale);
    printf("%llu\n%llu\n", (unsigned long long)a.first, (unsigned long long)a.last);
}

int main(int argc, char **argv) {
    static struct flangemint_pieces pieces;
    const char *name = argc == 2 ? argv[1] : "standard input";
    struct flangemint_answer a;
    FILE *file;
    if (argc > 2) {
        fprintf(stderr, "usage: stream [FILE] (without FILE standard input)\n");
        return 2;
    }
    errno = 0;
    file = argc == 2 ? fopen(name, "rb") : stdin;
    flangemint_pieces_start(&pieces);
    if (!file || !feed_file(&pieces, file)) {
        fprintf(stderr, "stream: %s: %s\n", name, errno ? strerror(errno) : "can't be read");
        return 2;
    }
    if (file != stdin) fclose(file);
    a = flangemint_check_pieces(&pieces);
    print_answer(a, name);
    if (fflush(stdout) || ferror(stdout)) {
        fprintf(stderr, "stream: standard output: %s\n", strerror(errno));
        return 2;
    }
    return a.verdict.number == FLANGEMINT_ACCEPTED ? 0 : 1;
}
