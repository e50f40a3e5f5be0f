/*
 * Changes an input as a bundle of tracks of boxes: boxes and records are taken out, doubled, swapped,
 * put in, resized, retyped, given the long header or other values, and all that encloses them keeps
 * its size right. Every third change is libFuzzer's own, which knows nothing of boxes. One input in 512 gets
 * the crowd, whether or not it had one: it takes as long as a hundred others.
 */
#include <stdint.h>
#include <string.h>

#include "target.h"

size_t LLVMFuzzerMutate(uint8_t *data, size_t size, size_t max);

enum { MOST_BOXES = 1024, MOST_RECORDS = 20, TOP = -1, MARK_AND_LENGTH = 6, SELDOM = 512 };

struct box {
    size_t at, size, head;
    int parent;
};

/* The input under change. */
static struct {
    uint8_t *data;
    size_t size, max;
    size_t records[MOST_RECORDS], record_count; /* where the mark of each stands; none: no set */
    size_t record;                              /* the one whose boxes are listed below */
    struct box boxes[MOST_BOXES];
    int count;
} in;

static uint8_t kept[1 << 16]; /* bytes on their way from one place to another */
static uint64_t state;

static uint64_t draw(uint64_t below)
{
    state ^= state << 13;
    state ^= state >> 7;
    state ^= state << 17;
    return below == 0 ? 0 : (state >> 11) % below;
}

static uint64_t get(size_t at, int bytes)
{
    uint64_t n = 0;
    for (int i = 0; i < bytes; i++)
        n = n << 8 | in.data[at + i];
    return n;
}

static void set(size_t at, int bytes, uint64_t n)
{
    for (int i = bytes; i-- > 0; n >>= 8)
        in.data[at + i] = (uint8_t)n;
}

static const char kinds[][5] = {
    "moov", "moof", "trak", "mvex", "edts", "mdia", "minf", "dinf", "stbl", "traf", /* containers */
    "ftyp", "mdat", "mvhd", "tkhd", "elst", "mdhd", "hdlr", "elng", "vmhd", "smhd", "sthd", "dref",
    "stsd", "stts", "stsc", "stsz", "stco", "trex", "mfhd", "tfhd", "tfdt", "trun", "free",
};
enum { CONTAINERS = 10, KINDS = sizeof kinds / sizeof kinds[0] };

static int is(size_t at, const char *kind)
{
    return memcmp(in.data + at + 4, kind, 4) == 0;
}

static int holds_boxes(size_t at)
{
    for (int i = 0; i < CONTAINERS; i++)
        if (is(at, kinds[i]))
            return 1;
    return 0;
}

static void list(size_t at, size_t end, int parent)
{
    while (end - at >= 8 && in.count < MOST_BOXES) {
        size_t head = 8, size = get(at, 4);
        if (size == 1 && end - at >= 16) {
            head = 16;
            size = get(at + 8, 8);
        }
        if (size < head || size > end - at)
            return;
        int self = in.count++;
        in.boxes[self] = (struct box){at, size, head, parent};
        if (holds_boxes(at))
            list(at + head, at + size, self);
        at += size;
    }
}

/* Lists the records of a set, and the boxes of the track, or of one record drawn by lot. */
static void look(void)
{
    size_t start = HEAD, end = in.size;
    in.count = 0;
    in.record_count = 0;
    in.record = 0;
    if (in.data[0] % 3 == 2) {
        for (size_t at = HEAD; in.size - at >= MARK_AND_LENGTH && in.record_count < MOST_RECORDS;) {
            size_t length = get(at + 2, 4);
            if (length > in.size - at - MARK_AND_LENGTH)
                break;
            in.records[in.record_count++] = at;
            at += MARK_AND_LENGTH + length;
        }
        if (in.record_count == 0)
            return;
        in.record = draw(in.record_count);
        start = in.records[in.record] + MARK_AND_LENGTH;
        end = start + get(start - 4, 4);
    }
    list(start, end, TOP);
}

static void grow(int box, int64_t by)
{
    for (; box != TOP; box = in.boxes[box].parent) {
        struct box *b = &in.boxes[box];
        b->size += (size_t)by;
        if (b->head == 16)
            set(b->at + 8, 8, b->size);
        else
            set(b->at, 4, b->size);
    }
    if (in.record_count > 0) {
        size_t length = in.records[in.record] + 2;
        set(length, 4, get(length, 4) + (uint64_t)by);
    }
}

static int room_for(size_t more)
{
    return in.max - in.size >= more;
}

/* `gone` bytes at `at` give way to `more` bytes of no set value; nothing else is told of it. */
static void splice(size_t at, size_t gone, size_t more)
{
    memmove(in.data + at + more, in.data + at + gone, in.size - at - gone);
    in.size = in.size - gone + more;
}

static void copy_in(size_t from, size_t length, size_t to)
{
    if (!room_for(length))
        return;
    splice(to, 0, length);
    memmove(in.data + to, in.data + (from < to ? from : from + length), length);
}

static void take_out(int b)
{
    struct box box = in.boxes[b];
    grow(box.parent, -(int64_t)box.size);
    splice(box.at, box.size, 0);
}

/* A copy of a box, before itself or before another. */
static void double_it(int b)
{
    struct box box = in.boxes[b], before = in.boxes[draw(3) == 0 ? draw((uint64_t)in.count) : (uint64_t)b];
    if (box.size > sizeof kept || !room_for(box.size))
        return;
    memcpy(kept, in.data + box.at, box.size);
    splice(before.at, 0, box.size);
    memcpy(in.data + before.at, kept, box.size);
    grow(before.parent, (int64_t)box.size);
}

static void swap_with_next(int b)
{
    struct box box = in.boxes[b];
    for (int c = b + 1; c < in.count; c++) {
        struct box next = in.boxes[c];
        if (next.parent != box.parent)
            continue;
        if (next.at == box.at + box.size && box.size <= sizeof kept) {
            memcpy(kept, in.data + box.at, box.size);
            memmove(in.data + box.at, in.data + next.at, next.size);
            memcpy(in.data + box.at + next.size, kept, box.size);
        }
        return;
    }
}

static void put_in(int b)
{
    size_t at = in.boxes[b].at, size = 8 + 4 * draw(8);
    if (!room_for(size))
        return;
    splice(at, 0, size);
    memset(in.data + at, 0, size);
    set(at, 4, size);
    memcpy(in.data + at + 4, kinds[draw(KINDS)], 4);
    grow(in.boxes[b].parent, (int64_t)size);
}

static void resize(int b)
{
    struct box box = in.boxes[b];
    size_t by = draw(3) == 0 ? draw(8) : 4 * (1 + draw(6));
    if (draw(2) == 0) {
        if (!room_for(by))
            return;
        splice(box.at + box.size, 0, by);
        memset(in.data + box.at + box.size, draw(2) == 0 ? 0 : (int)draw(256), by);
        grow(b, (int64_t)by);
    } else if (box.size - box.head >= by) {
        splice(box.at + box.size - by, by, 0);
        grow(b, -(int64_t)by);
    }
}

static void long_head(int b)
{
    struct box *box = &in.boxes[b];
    if (box->head == 16) {
        splice(box->at + 8, 8, 0);
        box->head = 8;
        grow(b, -8);
    } else if (room_for(8)) {
        splice(box->at + 8, 0, 8);
        set(box->at, 4, 1);
        box->head = 16;
        grow(b, 8);
    }
}

static void retype(int b)
{
    memcpy(in.data + in.boxes[b].at + 4, kinds[draw(KINDS)], 4);
}

/* Another number in one of the first fields of the body: near the old, or one that matters. */
static void renumber(int b)
{
    static const uint64_t good[] = {0, 1, 2, 4, 8, 0x10000, 0x20000, 0x10001, 65536, 65537, 90000, 32768, 32769, 0x7fffffff, 0x80000000,
                                    0xffffffff, 0x301, 0x305, 0xf01, 0x701, 0x205, 0x38};
    struct box box = in.boxes[b];
    size_t fields = (box.size - box.head) / 4;
    if (fields == 0)
        return;
    size_t at = box.at + box.head + 4 * draw(draw(2) == 0 || fields < 8 ? fields : 8);
    uint64_t old = get(at, 4);
    switch (draw(5)) {
    case 0: set(at, 4, old + 1); break;
    case 1: set(at, 4, old - 1); break;
    case 2: set(at, 4, old ^ (uint64_t)1 << draw(32)); break;
    case 3: set(at, 4, good[draw(sizeof good / sizeof good[0])]); break;
    default: set(at, 1, draw(3)); break;
    }
}

/* libFuzzer's own change to one body, with sizes right around it. */
static void rework(int b)
{
    struct box box = in.boxes[b];
    size_t old = box.size - box.head, most = old + (in.max - in.size);
    if (old == 0 || old > sizeof kept)
        return;
    if (most > sizeof kept)
        most = sizeof kept;
    memcpy(kept, in.data + box.at + box.head, old);
    size_t now = LLVMFuzzerMutate(kept, old, most);
    splice(box.at + box.head, old, now);
    memcpy(in.data + box.at + box.head, kept, now);
    grow(b, (int64_t)now - (int64_t)old);
}

/* One record less, or one more. */
static void records(void)
{
    size_t at = in.records[in.record], whole = MARK_AND_LENGTH + get(at + 2, 4);
    if (draw(3) == 0)
        splice(at, whole, 0);
    else
        copy_in(at, whole, draw(2) == 0 ? at : in.records[draw(in.record_count)]);
}

/* Another job for the same track; to and from a set with its record header. */
static void other_job(void)
{
    if (in.record_count > 0) {
        size_t at = in.records[in.record], length = get(at + 2, 4);
        memmove(in.data + HEAD, in.data + at + MARK_AND_LENGTH, length);
        in.size = HEAD + length;
        in.data[0] = (uint8_t)draw(2);
    } else if (in.data[0] % 3 == 1 && room_for(MARK_AND_LENGTH)) {
        splice(HEAD, 0, MARK_AND_LENGTH);
        memcpy(in.data + HEAD, "SW", 2);
        set(HEAD + 2, 4, in.size - HEAD - MARK_AND_LENGTH);
        in.data[0] = 2;
    } else {
        in.data[0] = (uint8_t)draw(24);
    }
}

/* Each first run's offset as rule 22 wants it, for the chunks as they now are. */
static void repair_offsets(void)
{
    size_t moof = 0, first = 0;
    for (int b = 0; b < in.count; b++) {
        struct box box = in.boxes[b];
        if (is(box.at, "moof")) {
            moof = box.at;
            first = 0;
        } else if (is(box.at, "trun") && first == 0 && moof != 0 && box.size >= box.head + 12) {
            first = box.at + box.head;
        } else if (is(box.at, "mdat") && first != 0 && in.data[first + 3] % 2 == 1) {
            set(first + 8, 4, box.at + box.head - moof);
            first = 0;
        }
    }
}

/* Starts as rule 19 wants them: where the judge refuses one, it is asked where the chunks before it end. */
static void repair_starts(size_t start, size_t end)
{
    for (int times = 0; times < 4; times++) {
        uint64_t verdict[5];
        struct split track = {1, 0, 0, 2048, in.data + start, end - start};
        judged(&track, verdict);
        if (verdict[0] != 19)
            return;
        size_t tfdt = start + verdict[2], moof = start, head = 8;
        for (int b = 0; b < in.count && in.boxes[b].at <= tfdt; b++) {
            if (is(in.boxes[b].at, "moof") && in.boxes[b].parent == TOP)
                moof = in.boxes[b].at;
            head = in.boxes[b].head;
        }
        track.len = moof - start;
        const uint64_t *boundaries = judged(&track, verdict);
        if (verdict[0] != 0)
            return;
        set(tfdt + head + 4, in.data[tfdt + head] == 1 ? 8 : 4, boundaries[verdict[3]]);
    }
}

static void repair_track(size_t start, size_t end)
{
    in.count = 0;
    list(start, end, TOP);
    repair_offsets();
    if (draw(2) == 0)
        repair_starts(start, end);
}

static void repair(void)
{
    if (in.data[0] % 3 != 2) {
        repair_track(HEAD, in.size);
        return;
    }
    for (size_t at = HEAD; in.size - at >= MARK_AND_LENGTH;) {
        size_t length = get(at + 2, 4);
        at += MARK_AND_LENGTH;
        if (length > in.size - at)
            return;
        repair_track(at, at + length);
        at += length;
    }
}

/* A table of any length, or as long as the numbers to be written, or shorter or longer by one. */
static void other_room(void)
{
    uint64_t verdict[5];
    struct split all = {in.data[0] % 3, 0, 0, OWN_ROOM, in.data + HEAD, in.size - HEAD};
    judged(&all, verdict);
    if (verdict[0] != 0 || draw(4) == 0) {
        set(1, 2, draw(3) == 0 ? draw(OWN_ROOM + 1) : draw(48));
        return;
    }
    uint64_t need = all.job == 0 ? 4 * verdict[3] : verdict[3] + 1;
    set(1, 2, (need + draw(3) + OWN_ROOM) % (OWN_ROOM + 1));
}

static void change(void)
{
    look();
    if (in.count == 0 || draw(16) == 0) {
        if (draw(2) == 0)
            other_job();
        else
            other_room();
        return;
    }
    int b = (int)draw((uint64_t)in.count);
    switch (draw(in.record_count > 0 ? 13 : 11)) {
    case 0: take_out(b); break;
    case 1: double_it(b); break;
    case 2: swap_with_next(b); break;
    case 3: put_in(b); break;
    case 4: resize(b); break;
    case 5: long_head(b); break;
    case 6: retype(b); break;
    case 7:
    case 8: renumber(b); break;
    case 9:
    case 10: rework(b); break;
    default: records(); break;
    }
}

static void change_some(void)
{
    for (uint64_t times = 1 + draw(3); times > 0; times--)
        if (in.size >= HEAD + 8)
            change();
    if (draw(2) == 0)
        repair();
}

/* A crowd that brings a track to the limit of boxes, or to one less or more; of any number if none does. */
static void crowd(void)
{
    in.data[0] = (uint8_t)(CROWDED + in.data[0] % 6);
    look();
    uint64_t number = CROWD_SPAN + draw(3) - 1 - (uint64_t)in.count;
    if (number >= CROWD_SPAN)
        number = draw(CROWD_SPAN);
    in.data[2] = (uint8_t)(in.data[2] / CROWD_SPAN * CROWD_SPAN + number);
}

size_t LLVMFuzzerCustomMutator(uint8_t *data, size_t size, size_t max, unsigned int seed)
{
    state = seed * 0x9e3779b97f4a7c15u + 1;
    draw(1);
    in.data = data;
    in.size = size;
    in.max = max;
    if (size < HEAD + 8 || draw(3) == 0)
        in.size = LLVMFuzzerMutate(data, size, max);
    else
        change_some();
    if (in.size >= HEAD && draw(SELDOM) == 0)
        crowd();
    else if (in.size > 0 && data[0] >= CROWDED)
        data[0] -= CROWDED;
    return in.size;
}
