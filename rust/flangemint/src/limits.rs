//! How much there can be, as in include/flangemint.h, which says how the rooms follow.

/// Bytes of a slice, a track or a bundle: rule 1.
pub const MAX_BYTES: usize = 1_073_741_824;

/// Boxes of a slice: rule 5.
pub const MAX_BOXES: usize = 65_536;

/// Tracks of a bundle: rule 24.
pub const MAX_TRACKS: usize = 16;

/// Bytes of a `ftyp`, `moov` or `moof` of a track that arrives in pieces: rule 29.
pub const MAX_GATHERED: usize = 32_768;

/// Numbers in a table that is never too short for the index.
pub const INDEX_ROOM: usize = 4 * MAX_BOXES;

/// Numbers in a table that is never too short for a track or a set.
pub const TRACK_ROOM: usize = (MAX_BOXES - 20) / 7 + 1;

/// A bare header.
const SMALLEST_BOX: usize = 8;

/// Of an accepted track: `moof` 8, `mfhd` 16, `traf` 8, `tfhd` 16, `tfdt` 16, `trun` with its offset
/// 20, `mdat` 8.
const SMALLEST_CHUNK: usize = 92;

/// Numbers in a table that is never too short for the index of so many bytes.
pub fn index_room(bytes: usize) -> usize {
    (4 * (bytes / SMALLEST_BOX)).min(INDEX_ROOM)
}

/// Numbers in a table that is never too short for a track or a set of so many bytes.
pub fn track_room(bytes: usize) -> usize {
    (bytes / SMALLEST_CHUNK + 1).min(TRACK_ROOM)
}

/// The version of the library.
pub const VERSION: &str = env!("CARGO_PKG_VERSION");
