/*
 * Flangemint: checks of CMAF tracks and switching sets over memory that the caller lends.
 *
 * Each of the three jobs (index, track, set) looks at the `len` bytes at `data`, may write the
 * front of the `room` numbers at `table`, and always writes all five numbers of `verdict`:
 *
 *   verdict[0]  number     0 where every rule holds, else the first broken rule (below)
 *   verdict[1]  track      of a set, the track that breaks it, counted from 0; else 0.
 *                          For FLANGEMINT_BUNDLE: the number of good records before the bad one
 *   verdict[2]  place      the byte that the refusal points to, counted from the start of the track
 *                          (for FLANGEMINT_BUNDLE from the start of the bundle); 0 on acceptance
 *   verdict[3]  count      on acceptance the boxes (index) or the fragments (track, set); else 0
 *   verdict[4]  timescale  on acceptance the track's ticks a second (index: 0); else 0
 *
 * On acceptance the first numbers of `table` are written and nothing after them: four a box for
 * the index (offset, whole size, type as a number, depth), count + 1 boundaries in ticks for a
 * track or a set. On a refusal `table` is as it was.
 *
 * A chunk is a moof and its mdat. One whose first sample is sync begins a fragment, any other continues it.
 * The boundaries are the start of each fragment and the end of the last.
 *
 * A track that arrives in pieces has a form of its own, struct flangemint_pieces below.
 *
 * No function allocates, keeps a pointer, reads outside its arguments or fails to return.
 * Lengths may be 0; no pointer may be null, and `data`, `table` and `verdict` must not overlap.
 * Several threads may call at once.
 */
#ifndef FLANGEMINT_H
#define FLANGEMINT_H

#include <stddef.h>
#include <stdint.h>

#ifdef __cplusplus
extern "C" {
#endif

#define FLANGEMINT_VERSION "0.2.0"
#define FLANGEMINT_VERSION_MAJOR 0
#define FLANGEMINT_VERSION_MINOR 2
#define FLANGEMINT_VERSION_PATCH 0

#define FLANGEMINT_MAX_BYTES 1073741824 /* of a slice, a track or a bundle: rule 1 */
#define FLANGEMINT_MAX_BOXES 65536      /* of a slice: rule 5 */
#define FLANGEMINT_MAX_TRACKS 16        /* of a bundle: rule 24 */
#define FLANGEMINT_MAX_GATHERED 32768   /* of a ftyp, moov or moof of a track in pieces: rule 29 */

/*
 * How many numbers a table needs so that it is never too short. The index has four a box. Of an accepted
 * track's boxes at least 20 are the header's (ftyp, moov, mvhd, trak, tkhd, mdia, mdhd, hdlr, minf, its media
 * header, dinf, dref, stbl, stsd, stts, stsc, stsz, stco, mvex, trex), and each chunk has at least 7 (moof, mfhd,
 * traf, tfhd, tfdt, trun, mdat); a fragment has at least one chunk, and there is one boundary more than there are
 * fragments. The tracks of an accepted set share theirs. (This counts boxes; it is not proved. Were it wrong, the
 * answer would be FLANGEMINT_ROOM.) That is 2 MiB for the index and 74,880 bytes for a track or a set; a slice of len
 * bytes needs no more than 4 * (len / 8) and len / 92 + 1 numbers, as a box has at least 8 bytes and a chunk 92.
 */
#define FLANGEMINT_INDEX_ROOM (4 * FLANGEMINT_MAX_BOXES)
#define FLANGEMINT_TRACK_ROOM ((FLANGEMINT_MAX_BOXES - 20) / 7 + 1)

/* What verdict[0] says; the comment ends with the byte that verdict[2] points to. */
enum flangemint_number {
    FLANGEMINT_ACCEPTED = 0,            /* every rule holds: 0 */
    FLANGEMINT_TOO_LONG = 1,            /* slice over 1,073,741,824 bytes: 0 */
    FLANGEMINT_SHORT_HEADER = 2,        /* too few bytes left for a box header: the box's start */
    FLANGEMINT_SMALL_SIZE = 3,          /* box size 0, or below its own header: the box */
    FLANGEMINT_BEYOND_PARENT = 4,       /* box ends beyond its parent: the box */
    FLANGEMINT_TOO_MANY_BOXES = 5,      /* bytes remain after 65,536 boxes: the next box's start */
    FLANGEMINT_ORDER = 6,               /* not ftyp, moov, pairs of moof and mdat: the first wrong box, or the length */
    FLANGEMINT_HEADER_COUNT = 7,        /* header box missing or extra: its container, or the first extra box */
    FLANGEMINT_HEADER_BODY = 8,         /* header box of a wrong size or version: the box */
    FLANGEMINT_BRAND = 9,               /* neither cmfc nor cmf2 among the compatible brands: ftyp */
    FLANGEMINT_TIMESCALE_ZERO = 10,     /* timescale 0: mdhd */
    FLANGEMINT_TRACK_ID = 11,           /* track ID 0, or trex has another: tkhd, trex */
    FLANGEMINT_HANDLER_PAIRING = 12,    /* handler and media header don't pair: hdlr */
    FLANGEMINT_SAMPLE_TABLE = 13,       /* a sample table not empty, or stsd entry count not 1: the box */
    FLANGEMINT_CHUNK_COUNT = 14,        /* chunk box missing or extra: its container, or the first extra box */
    FLANGEMINT_CHUNK_BODY = 15,         /* chunk box of a wrong size or version: the box */
    FLANGEMINT_FLAGS = 16,              /* forbidden or missing flag: the box */
    FLANGEMINT_CHUNK_TRACK_ID = 17,     /* tfhd track ID differs from tkhd: tfhd */
    FLANGEMINT_SAMPLE_COUNT = 18,       /* samples in the chunk not 1 to 65,536: traf */
    FLANGEMINT_START = 19,              /* start of a later chunk differs from the end of the one before: tfdt */
    FLANGEMINT_DURATION = 20,           /* chunk of duration 0, or with an end over 2^63 - 1: its first trun */
    FLANGEMINT_NON_SYNC = 21,           /* first sample of the track's first chunk is non-sync: its first trun */
    FLANGEMINT_TILING = 22,             /* sample bytes don't tile the data box: the first wrong trun, or mdat */
    FLANGEMINT_ROOM = 23,               /* table too short for the numbers to write: 0 */
    FLANGEMINT_BUNDLE = 24,             /* no record, over 16, or a bad one: its start in the bundle */
    FLANGEMINT_HANDLER_DIFFERS = 25,    /* handler differs from track 0: hdlr */
    FLANGEMINT_TIMESCALE_DIFFERS = 26,  /* timescale differs from track 0: mdhd */
    FLANGEMINT_FRAGMENTS_DIFFER = 27,   /* number of fragments differs from track 0: the track's length */
    FLANGEMINT_BOUNDARY_DIFFERS = 28,   /* a boundary differs from track 0: that fragment's first moof, or the last's */
    FLANGEMINT_LARGE_BOX = 29           /* in pieces: top-level ftyp, moov or moof over 32,768 bytes: the box */
};

/* No verdict: the pieces were never started, or something else wrote over them. No rule has this number. */
#define FLANGEMINT_UNSTARTED ((uint64_t)-1)

/* Lists the boxes of a slice: numbers 0 to 5 and 23. */
void flangemint_index(const uint8_t *data, size_t len, uint64_t *table, size_t room, uint64_t verdict[5]);

/* Checks one track, header and chunks: numbers 0 to 23. */
void flangemint_track(const uint8_t *data, size_t len, uint64_t *table, size_t room, uint64_t verdict[5]);

/* Checks a switching set, a bundle of 1 to 16 tracks: numbers 0 to 28. */
void flangemint_set(const uint8_t *data, size_t len, uint64_t *table, size_t room, uint64_t verdict[5]);

/* What a number of enum flangemint_number means, in one sentence; for any other number a sentence that says so. */
const char *flangemint_sentence(uint64_t number);

/* The five numbers by name, and the three checks with them as answer. */
struct flangemint_verdict {
    uint64_t number, track, place, count, timescale;
};

static inline struct flangemint_verdict flangemint_named(const uint64_t verdict[5]) {
    struct flangemint_verdict named;
    named.number = verdict[0];
    named.track = verdict[1];
    named.place = verdict[2];
    named.count = verdict[3];
    named.timescale = verdict[4];
    return named;
}

static inline struct flangemint_verdict flangemint_check_index(const uint8_t *data, size_t len, uint64_t *table,
                                                               size_t room) {
    uint64_t verdict[5];
    flangemint_index(data, len, table, room, verdict);
    return flangemint_named(verdict);
}

static inline struct flangemint_verdict flangemint_check_track(const uint8_t *data, size_t len, uint64_t *table,
                                                               size_t room) {
    uint64_t verdict[5];
    flangemint_track(data, len, table, room, verdict);
    return flangemint_named(verdict);
}

static inline struct flangemint_verdict flangemint_check_set(const uint8_t *data, size_t len, uint64_t *table,
                                                             size_t room) {
    uint64_t verdict[5];
    flangemint_set(data, len, table, room, verdict);
    return flangemint_named(verdict);
}

/*
 * A track that arrives in pieces. Start, feed every piece in order, finish; however the bytes are cut, the answer is
 * the same. It is that of flangemint_track for all the bytes since the start, but that the table and
 * FLANGEMINT_ROOM are left out and FLANGEMINT_LARGE_BOX is there: numbers 0 to 22 and 29.
 *
 *   answer[0..4]  number, track (0), place, count (fragments), timescale, as in a verdict
 *   answer[5]     first    on acceptance the first boundary in ticks; else 0
 *   answer[6]     last     on acceptance the last one; else 0
 *
 * The struct is all the memory that it takes: 32,976 bytes, wherever the caller puts them. Nothing of a data box is
 * kept. There is no pointer in it: it may be copied and moved, a copy goes on by itself, and it may be written to disk
 * and read back by the same library on the same machine. What stands in it is not for the caller to change.
 *
 * A piece may be empty; `data` is not null even then, and does not overlap the struct. Once more than
 * FLANGEMINT_MAX_BYTES were fed the answer is FLANGEMINT_TOO_LONG for good, and feeding may stop.
 * Start may be called at any time, and forgets what was fed before. Finish changes nothing: feeding can go on after
 * it, and the next finish answers for all. One thread at a time feeds a struct; others may feed others.
 *
 * A struct that was never started, or that was written over, does no harm. Where that is noticed the answer's number
 * is FLANGEMINT_UNSTARTED, and stays so whatever is fed. Not every change is noticed: what was written over may answer
 * anything, an acceptance too.
 */
struct flangemint_pieces {
    uint64_t numbers[24];
    uint8_t head[16];
    uint8_t kept[FLANGEMINT_MAX_GATHERED];
};

/* The exported functions, which take the parts of the struct; the three after them take the struct. */
void flangemint_pieces_begin(uint64_t numbers[24]);
void flangemint_pieces_take(uint64_t numbers[24], uint8_t head[16], uint8_t kept[FLANGEMINT_MAX_GATHERED],
                            const uint8_t *data, size_t len);
void flangemint_pieces_answer(const uint64_t numbers[24], const uint8_t head[16],
                              const uint8_t kept[FLANGEMINT_MAX_GATHERED], uint64_t answer[7]);

static inline void flangemint_pieces_start(struct flangemint_pieces *pieces) {
    flangemint_pieces_begin(pieces->numbers);
}

static inline void flangemint_pieces_feed(struct flangemint_pieces *pieces, const uint8_t *data, size_t len) {
    flangemint_pieces_take(pieces->numbers, pieces->head, pieces->kept, data, len);
}

static inline void flangemint_pieces_finish(const struct flangemint_pieces *pieces, uint64_t answer[7]) {
    flangemint_pieces_answer(pieces->numbers, pieces->head, pieces->kept, answer);
}

/* The seven numbers by name, and finish with them as answer. */
struct flangemint_answer {
    struct flangemint_verdict verdict;
    uint64_t first, last;
};

static inline struct flangemint_answer flangemint_check_pieces(const struct flangemint_pieces *pieces) {
    uint64_t answer[7];
    struct flangemint_answer named;
    flangemint_pieces_finish(pieces, answer);
    named.verdict = flangemint_named(answer);
    named.first = answer[5];
    named.last = answer[6];
    return named;
}

#ifdef __cplusplus
}
#endif

#endif
