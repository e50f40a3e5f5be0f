//! Where a set parts: the place in the picture that a refusal points to.

use super::rows::Row;
use crate::chunks::{chunks, Chunk};
use crate::facts::Track;
use crate::place::bare_moof;
use crate::reason::Reason;
use crate::time::seconds;
use flangemint::Verdict;

pub struct Mark {
    pub row: usize,
    pub place: Place,
    pub words: String,
}

/// Ticks are those of the row.
#[derive(Clone, Copy, Debug, PartialEq, Eq)]
pub enum Place {
    /// Before the first chunk, or in one whose time can't be read.
    Header,
    /// From its start on; the end may not be readable.
    Chunk { start: u64, end: Option<u64> },
    /// A tick that stands elsewhere than expected; `at` is the moment from which on it is wrong.
    Ticks { found: u64, expected: u64, at: u64 },
    /// Between two chunks, at the end of the first.
    Between { at: u64 },
    /// After the last chunk, which ends there.
    Tail { at: u64 },
}

/// The mark of a refusal; numbers that point to no byte of a track have none.
pub fn mark(verdict: &Verdict, reason: &Reason, rows: &[Row], tracks: &[Track]) -> Option<Mark> {
    if matches!(verdict.number, 0 | 1 | 23 | 24) {
        return None;
    }
    let nth = usize::try_from(verdict.track).ok()?;
    let (row, track) = (rows.get(nth)?, tracks.get(nth)?);
    let (place, words) = match verdict.number {
        19 => decode_time(reason, row)?,
        27 | 28 => beside(verdict, row, rows.first()?)?,
        _ => box_at(verdict.place, reason, row, track),
    };
    Some(Mark { row: nth, place, words })
}

/// `1 tick late (0.000011 s)`, of a tick that is not where it was expected.
fn shift(found: u64, expected: u64, timescale: u64) -> String {
    let ticks = found.abs_diff(expected);
    let plural = if ticks == 1 { "" } else { "s" };
    let side = if found > expected { "late" } else { "early" };
    format!("{ticks} tick{plural} {side} ({})", seconds(ticks, timescale))
}

/// 19: a gap or an overlap.
fn decode_time(reason: &Reason, row: &Row) -> Option<(Place, String)> {
    let contrast = reason.contrast.as_ref()?;
    let found = u64::try_from(contrast.found.number?).ok()?;
    let expected = u64::try_from(contrast.expected.number?).ok()?;
    let shift = shift(found, expected, row.timescale);
    let what = if found > expected { "a gap" } else { "an overlap" };
    let words = format!("{} starts {shift}: {what}", chunk(reason)?);
    Some((Place::Ticks { found, expected, at: expected }, words))
}

/// The name of the chunk in which the refused box stands.
fn chunk(reason: &Reason) -> Option<String> {
    Some(named(reason.chunk?.number, reason.fragment.map(|fragment| fragment.number)))
}

/// `chunk 5 (of fragment 1)`; just the chunk where its fragment has the same number or none.
fn named(chunk: u64, fragment: Option<u64>) -> String {
    let other = fragment.filter(|fragment| *fragment != chunk);
    let of = other.map_or(String::new(), |fragment| format!(" (of fragment {fragment})"));
    format!("chunk {chunk}{of}")
}

/// 27 and 28: the first boundary that differs; where none does, the end of the shorter track.
fn beside(verdict: &Verdict, row: &Row, zero: &Row) -> Option<(Place, String)> {
    let track = verdict.track;
    let ticks =
        |found: u64, expected: u64| Place::Ticks { found, expected, at: found.min(expected) };
    let mut both = row.judged.iter().zip(&zero.judged).enumerate();
    if let Some((nth, (found, expected))) = both.find(|(_, (one, other))| one != other) {
        let at = |ticks: u64| format!("at tick {ticks} ({})", seconds(ticks, row.timescale));
        let words = match verdict.number {
            27 if found > expected => {
                format!("track {track} has no boundary {}, as track 0 has", at(*expected))
            }
            27 => format!("track {track} has a boundary {} that track 0 has not", at(*found)),
            _ => {
                let shift = shift(*found, *expected, row.timescale);
                format!("boundary {nth} of track {track} is {shift}")
            }
        };
        return Some((ticks(*found, *expected), words));
    }
    let missing = row.judged.len().abs_diff(zero.judged.len());
    let plural = if missing == 1 { "" } else { "s" };
    let side = if row.judged.len() < zero.judged.len() { "early" } else { "after track 0" };
    let words = format!("track {track} ends {missing} fragment{plural} {side}");
    Some((ticks(*row.judged.last()?, *zero.judged.last()?), words))
}

/// Other refusals: the chunk in which the refused box stands, or what is before, between and after
/// them.
fn box_at(place: u64, reason: &Reason, row: &Row, track: &Track) -> (Place, String) {
    if let Some((part, name)) = reason.chunk.zip(chunk(reason)) {
        return in_chunk(row, part.number, format!("{name} is refused"));
    }
    let all = chunks(track);
    let Some(nth) = all.iter().rposition(|chunk| chunk.moof < place) else {
        return (Place::Header, "refused before the first fragment".to_owned());
    };
    let Chunk { number, moof, fragment, .. } = all[nth];
    if bare_moof(track.view(), place) == Some(moof) {
        let name = named(number, fragment);
        return in_chunk(
            row,
            number,
            format!("{name} is refused: no mdat directly after its moof"),
        );
    }
    after(row, number, all.get(nth + 1).map(|next| next.number), track.listing.proved)
}

/// In a chunk.
fn in_chunk(row: &Row, number: u64, words: String) -> (Place, String) {
    let read = row.read.iter().find(|read| read.number == number);
    let start = read.map(|read| read.start).or(row.judged.last().copied());
    match start {
        Some(start) => (Place::Chunk { start, end: read.map(|read| read.end) }, words),
        None => (Place::Header, format!("{words}; its time can't be read")),
    }
}

/// After a chunk and before the next one, if there is one. Where the framing is refused, boxes are
/// listed up to the place and not all of them.
fn after(row: &Row, number: u64, next: Option<u64>, all: bool) -> (Place, String) {
    let read = |number: u64| row.read.iter().find(move |read| read.number == number);
    let end = read(number).map(|read| read.end).or(row.judged.last().copied());
    // Where the end can't be read, the next chunk tells it.
    let at = end.or_else(|| read(next?).map(|read| read.start));
    let words = match next {
        Some(next) => format!("refused between chunk {number} and chunk {next}"),
        None if all => format!("refused after chunk {number}, the last one"),
        None => format!("refused after chunk {number}; what follows is not read"),
    };
    match at {
        Some(at) if next.is_some() => (Place::Between { at }, words),
        Some(at) => (Place::Tail { at }, words),
        None => (Place::Header, format!("{words}; no time can be read there")),
    }
}
