//! Document 01's three jobs over lent bytes, in ordinary Rust: list the boxes
//! of a slice, check one track, check a switching set; and request 1's form of
//! the second, which takes a track in pieces. By request 2 a `moof` with its
//! `mdat` is a chunk, and a fragment is one or more of these.
//!
//! Nothing here panics, whatever the bytes are. `Pieces` allocates, and so does a track of
//! more than thirty fragments, for its boundaries; nothing else does. A lent table is
//! written on acceptance alone, and then only as far as the job fills it.

#![forbid(unsafe_code)]

mod chunk;
mod counts;
mod fields;
mod framing;
mod header;
mod index;
mod kinds;
mod moof;
mod moov;
mod order;
mod pieces;
mod run;
mod set;
mod sums;
mod timeline;
mod track;
mod verdict;

pub use index::index;
pub use pieces::{pieces_whole, Pieces, PiecesAnswer};
pub use set::set;
pub use track::track;
pub use verdict::Verdict;

/// Rule 1: the longest slice that is looked at, track or bundle.
pub const MAX_BYTES: usize = 1 << 30;
/// Rule 5 (house; request 4): the most boxes in one slice.
pub const MAX_BOXES: usize = 65_536;
/// Rule 18 (house): the most samples in one chunk.
pub const MAX_SAMPLES: u64 = 65_536;
/// Rule 29: the most bytes that a `ftyp`, `moov` or `moof` of a track in pieces may declare.
pub const MAX_KEPT: u64 = 32_768;
/// The bundle: the most records in one set.
pub const MAX_TRACKS: usize = 16;
