/* The verdict numbers in words, from docs/REFUSALS.md: tools/sentences writes this file, `make sentences` checks it. */
#include "flangemint.h"

const char *flangemint_sentence(uint64_t number) {
    static const char *const sentences[] = {
        "Every rule holds, for each track and between the tracks.",
        "The track is over 1,073,741,824 bytes (1 GiB), or the bundle is: the tracks of a set count together, "
        "with six bytes a track for mark and length.",
        "A box should begin here, but only 1 to 7 bytes are left in its container or in the track; or the "
        "size field is 1, which announces a 16-byte header, and fewer than 16 bytes are left.",
        "The size field is 0 or 2 to 7, or a long size is under 16.",
        "The box says that it ends after its container, or after the end of the track.",
        "65,536 boxes have been read and bytes are left for another one.",
        "The first box is not ftyp; or ftyp, moov, moof, mdat do not come as ftyp, moov, and then pairs of "
        "moof and mdat; or something stands between a moof and its mdat; or there is no pair at all.",
        "A box that the header needs is missing, or one is there too often.",
        "A header box doesn't have the size that belongs to its version, or has a version that doesn't exist.",
        "Neither cmfc nor cmf2 is among the compatible brands.",
        "The timescale in mdhd is 0, so ticks have no length.",
        "The track ID in tkhd is 0, or trex names another track.",
        "The pair is none of vide with vmhd, soun with smhd, subt with sthd.",
        "stts, stsc, stsz or stco lists samples, which in a CMAF header must not be; or stsd has not exactly "
        "one entry.",
        "moof needs one mfhd and one traf; traf needs one tfhd, one tfdt and at least one trun.",
        "A box of the chunk doesn't have the size that its version, its flags and its sample count ask for.",
        "tfhd carries a base data offset (0x1) or says that it has no samples (0x10000), or does not say that "
        "offsets count from the moof (0x20000); or a trun has both first-sample flags (0x4) and flags for "
        "each sample (0x400).",
        "The track ID in tfhd differs from the one in tkhd.",
        "The chunk has no sample at all, or more than 65,536.",
        "The chunk doesn't start where the one before ended.",
        "The durations of the chunk sum to 0; or it ends after tick 2^63 - 1.",
        "The first sample of the track's first chunk is marked non-sync (0x00010000 in its flags).",
        "The sample sizes, the data offsets and the mdat don't agree.",
        "The caller lent a table of fewer than F + 1 numbers, or for the index fewer than four a box.",
        "The bundle isn't a row of 1 to 16 records, each with the mark 53 57 (SW), a four-byte length and so "
        "many bytes.",
        "The set mixes kinds, such as vide and soun.",
        "Ticks of this track have another length.",
        "This track has fewer or more fragments.",
        "Both tracks have equally many fragments, but one starts or ends at another tick.",
        "A ftyp, moov or moof at the top level declares over 32,768 bytes."
    };
    return number < sizeof sentences / sizeof *sentences ? sentences[number] : "No rule has this number.";
}
