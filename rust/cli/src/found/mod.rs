//! What stands at the refused place, and what the rule asks for, in words and where it is one
//! number also as that. Computed from the bytes and the proved jobs; it never changes the verdict.

mod chunk;
mod framing;
mod header;
mod set;

use crate::facts::Track;
use crate::view::View;

pub use framing::{in_bundle, large_box, too_long};
pub use set::beside;

/// One side of the contrast.
#[derive(Clone, Debug, PartialEq, Eq)]
pub struct Fact {
    pub words: String,
    pub number: Option<i128>,
}

#[derive(Clone, Debug, PartialEq, Eq)]
pub struct Contrast {
    pub found: Fact,
    pub expected: Fact,
}

fn said(words: impl Into<String>) -> Fact {
    Fact { words: words.into(), number: None }
}

fn counted(number: impl Into<i128>, words: impl Into<String>) -> Fact {
    Fact { words: words.into(), number: Some(number.into()) }
}

/// Both sides. A number that is the same on both is not what differs, and is left out.
fn contrast(mut found: Fact, mut expected: Fact) -> Option<Contrast> {
    if found.number == expected.number {
        (found.number, expected.number) = (None, None);
    }
    Some(Contrast { found, expected })
}

/// So many of a thing: `1 byte`, `2 bytes`.
pub fn many(number: impl Into<i128>, thing: &str) -> String {
    let number = number.into();
    format!("{number} {thing}{}", if number == 1 { "" } else { "s" })
}

/// The contrast of a refusal of the track itself, numbers 1 to 22. `start` is where the chunk before
/// ended, if there is one.
pub fn in_track(number: u64, track: &Track, place: u64, start: Option<u64>) -> Option<Contrast> {
    let view = track.view();
    let at = view.at(place);
    match number {
        1 => framing::too_long(),
        2 => framing::short_header(view, place),
        3 => framing::impossible_size(view, at?),
        4 => framing::beyond_parent(view, at?),
        5 => framing::too_many(view, place),
        6 => framing::order(view, place),
        7 | 14 => header::count(view, at?),
        8 => header::body(view, at?),
        9 => header::brands(view, at?),
        10 => contrast(counted(0, "timescale 0"), said("timescale 1 or more")),
        11 => header::track_id(view, at?),
        12 => header::handler(view, at?),
        13 => header::sample_table(view, at?),
        15 => chunk::body(view, at?),
        16 => chunk::flags(view, at?),
        17 => other_track_id(view, at?),
        18 => chunk::sample_count(view, at?),
        19 => chunk::decode_time(view, at?, start?, timescale(view)?),
        20 => chunk::duration(view, at?),
        21 => chunk::sync(view, at?),
        22 => chunk::tiling(view, at?),
        _ => None,
    }
}

/// The media timescale, from `mdhd`.
pub fn timescale(view: View) -> Option<u64> {
    let mdhd = view.find(&[b"moov", b"trak", b"mdia", b"mdhd"])?;
    view.body(mdhd).word_after_times().map(u64::from)
}

/// The track ID in a `trex` or a `tfhd`, and that in `tkhd`.
fn other_track_id(view: View, at: usize) -> Option<Contrast> {
    let tkhd = view.find(&[b"moov", b"trak", b"tkhd"])?;
    let (found, expected) = (view.body(at).word(4)?, view.body(tkhd).word_after_times()?);
    contrast(
        counted(found, format!("track ID {found}")),
        counted(expected, format!("track ID {expected} as in tkhd")),
    )
}

/// Size and version of a box, as rules 8 and 15 look at them.
fn size_and_version(view: View, at: usize) -> Fact {
    let size = view.boxes[at].size;
    let version = view.body(at).version().filter(|_| view.boxes[at].kind != *b"ftyp");
    let version = version.map_or(String::new(), |version| format!(", version {version}"));
    counted(size, format!("{}{version}", many(size, "byte")))
}
