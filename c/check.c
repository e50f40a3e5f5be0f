/*
 * check FILE..: judges one file as a track, 2 to 16 files as a switching set, and prints the verdict.
 * Ends with 0 where it is accepted, 1 where it is refused, 2 where it was not judged.
 */
#include <errno.h>
#include <stdio.h>
#include <stdlib.h>
#include <string.h>
#include "flangemint.h"

/* What is checked: the bytes of a track, or of a bundle. */
struct slice {
    uint8_t *bytes;
    size_t len, room;
};

/* Makes room for `more` bytes behind those there are; 0 where there is no memory. */
static int reserve(struct slice *s, size_t more) {
    uint8_t *bytes;
    size_t room = s->room;
    while (room - s->len < more) room *= 2;
    if (room == s->room) return 1;
    bytes = realloc(s->bytes, room);
    if (!bytes) return 0;
    s->bytes = bytes;
    s->room = room;
    return 1;
}

/* Appends a file. Past FLANGEMINT_MAX_BYTES one byte is enough: the slice is refused for its length then. */
static int append_file(struct slice *s, const char *name) {
    FILE *file;
    size_t got;
    int ok;
    errno = 0;
    file = fopen(name, "rb");
    if (!file) return 0;
    do {
        ok = reserve(s, 65536);
        got = ok ? fread(s->bytes + s->len, 1, 65536, file) : 0;
        s->len += got;
    } while (got > 0 && s->len <= FLANGEMINT_MAX_BYTES);
    ok = ok && !ferror(file);
    fclose(file);
    return ok;
}

/* Appends a file as a record of a bundle: the mark SW, the length in four bytes, the bytes. */
static int append_record(struct slice *s, const char *name) {
    size_t start = s->len, len;
    int k;
    if (!reserve(s, 6)) return 0;
    memcpy(s->bytes + start, "SW", 2);
    s->len += 6;
    if (!append_file(s, name)) return 0;
    len = s->len - start - 6;
    for (k = 0; k < 4; k++) s->bytes[start + 2 + k] = (uint8_t)(len >> (24 - 8 * k));
    return 1;
}

/* Prints the verdict on the files that were named. */
static void print_verdict(struct flangemint_verdict v, const uint64_t *boundaries, int files, char **names) {
    uint64_t k;
    if (v.number != FLANGEMINT_ACCEPTED) {
        printf("refused %llu track %llu at %llu\n", (unsigned long long)v.number, (unsigned long long)v.track,
               (unsigned long long)v.place);
        /* too long is a bundle as a whole */
        if (v.number != FLANGEMINT_TOO_LONG) printf("%s: ", names[v.track]);
        printf("%s\n", flangemint_sentence(v.number));
        return;
    }
    printf("accepted tracks %d fragments %llu timescale %llu\n", files, (unsigned long long)v.count,
           (unsigned long long)v.timescale);
    for (k = 0; k <= v.count; k++) printf("%llu\n", (unsigned long long)boundaries[k]);
}

int main(int argc, char **argv) {
    static uint64_t boundaries[FLANGEMINT_TRACK_ROOM];
    struct slice s = {NULL, 0, 65536};
    struct flangemint_verdict v;
    int k, files = argc - 1;
    if (files < 1 || files > FLANGEMINT_MAX_TRACKS) {
        fprintf(stderr, "usage: check FILE.. (one file: a track; 2 to %d: a set)\n", FLANGEMINT_MAX_TRACKS);
        return 2;
    }
    s.bytes = malloc(s.room);
    for (k = 1; k <= files && s.len <= FLANGEMINT_MAX_BYTES; k++) {
        if (!s.bytes || !(files == 1 ? append_file(&s, argv[k]) : append_record(&s, argv[k]))) {
            fprintf(stderr, "check: %s: %s\n", argv[k], errno ? strerror(errno) : "can't be read");
            return 2;
        }
    }
    v = (files == 1 ? flangemint_check_track : flangemint_check_set)(s.bytes, s.len, boundaries, FLANGEMINT_TRACK_ROOM);
    print_verdict(v, boundaries, files, argv + 1);
    free(s.bytes);
    if (fflush(stdout) || ferror(stdout)) {
        fprintf(stderr, "check: standard output: %s\n", strerror(errno));
        return 2;
    }
    return v.number == FLANGEMINT_ACCEPTED ? 0 : 1;
}
