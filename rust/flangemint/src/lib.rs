//! A CMAF intake check over lent bytes: list the boxes of a slice, check one
//! track, check a switching set, check a track that arrives in pieces.
//!
//! The checks themselves are in `libflangemint.a`; this crate makes them safe
//! to call and puts their numbers into words. Where the build finds no archive
//! for its target it says so, and the crate has the words alone.

#[cfg(linked)]
mod calls;
mod limits;
#[cfg(linked)]
mod pieces;
mod refusal;
mod verdict;

#[cfg(linked)]
pub use calls::{check_index, check_set, check_track};
/// What [`Pieces`] is made of, for the trials, which spoil the arrays.
#[cfg(linked)]
#[doc(hidden)]
pub use calls::{pieces_answer, pieces_begin, pieces_take, Head, Kept, Numbers};
pub use limits::{
    index_room, track_room, INDEX_ROOM, MAX_BOXES, MAX_BYTES, MAX_GATHERED, MAX_TRACKS, TRACK_ROOM,
    VERSION,
};
#[cfg(linked)]
pub use pieces::Pieces;
pub use refusal::{Refusal, UnknownNumber};
pub use verdict::{Answer, Verdict};
