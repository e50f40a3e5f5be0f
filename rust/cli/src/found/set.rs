//! Numbers 25 to 28: a track beside track 0.

use super::{contrast, counted, many, said, Contrast};
use crate::facts::Track;
use crate::judge::BoxAt;
use crate::layout::letters;
use crate::time::seconds;
use crate::view::View;

/// The contrast of a track beside track 0, numbers 25 to 28.
pub fn beside(number: u64, track: &Track, zero: &Track) -> Option<Contrast> {
    let (one, other) = (&track.alone.verdict, &zero.alone.verdict);
    let pair = |words: &dyn Fn(u64) -> String, one: u64, other: u64| {
        contrast(
            counted(one, words(one)),
            counted(other, format!("{} as in track 0", words(other))),
        )
    };
    match number {
        25 => {
            let (one, other) = (handler(track.view())?, handler(zero.view())?);
            contrast(said(format!("handler {one}")), said(format!("handler {other} as in track 0")))
        }
        26 => pair(&|number| format!("timescale {number}"), one.timescale, other.timescale),
        27 => contrast(
            counted(one.count, many(one.count, "fragment") + &in_chunks(track)),
            counted(other.count, format!("{} as in track 0", many(other.count, "fragment"))),
        ),
        28 => {
            let mut both = track.alone.boundaries.iter().zip(&zero.alone.boundaries).enumerate();
            let (nth, (one, other)) = both.find(|(_, (one, other))| one != other)?;
            let scale = track.alone.verdict.timescale;
            let words =
                |ticks| format!("boundary {nth} at tick {ticks} ({})", seconds(ticks, scale));
            pair(&words, *one, *other)
        }
        _ => None,
    }
}

/// ` in 8 chunks`, where an accepted track has more of them than fragments.
fn in_chunks(track: &Track) -> String {
    let is_chunk = |one: &&BoxAt| one.depth == 0 && one.kind == *b"moof";
    let chunks = track.listing.boxes.iter().filter(is_chunk).count() as u64;
    let several = chunks != track.alone.verdict.count;
    if several {
        format!(" in {}", many(chunks, "chunk"))
    } else {
        String::new()
    }
}

/// The handler type of a track.
fn handler(view: View) -> Option<String> {
    let hdlr = view.find(&[b"moov", b"trak", b"mdia", b"hdlr"])?;
    Some(letters(view.body(hdlr).kind(8)?))
}
