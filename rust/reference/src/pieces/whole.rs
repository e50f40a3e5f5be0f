//! The answer from the joined bytes: rule 1, framing with rule 29, then the track check.

use super::{is_bounded, PiecesAnswer};
use crate::fields::Fields;
use crate::verdict::{Refusal, Verdict};
use crate::{index, track, MAX_BYTES, MAX_KEPT};

/// What a track in pieces is answered, by all of its bytes.
pub fn pieces_whole(data: &[u8]) -> PiecesAnswer {
    check(data).unwrap_or_else(PiecesAnswer::from)
}

fn check(data: &[u8]) -> Result<PiecesAnswer, Refusal> {
    if data.len() > MAX_BYTES {
        return Err(Refusal::new(1, 0));
    }
    frame(data)?;
    let mut ticks: Option<(u64, u64)> = None;
    let track = track::check(data, |tick, _| {
        ticks = Some((ticks.map_or(tick, |(first, _)| first), tick));
    })?;
    let (first, last) = ticks.unwrap_or_default();
    let verdict = Verdict::accepted(track.fragments, track.header.timescale);
    Ok(PiecesAnswer { verdict, first, last })
}

/// Rules 2 to 5 and 29: the first in byte order, and at one place 5, 2, 3, 29, 4.
fn frame(data: &[u8]) -> Result<(), Refusal> {
    let framed = index::walk(data, |_, _| ());
    let Some(place) = first_over(data) else {
        return framed.map(|_| ());
    };
    match framed {
        Err(other) if other.place < place => Err(other),
        Err(other) if other.place == place && other.number != 4 => Err(other),
        _ => Err(Refusal::new(29, place)),
    }
}

/// The first box of the top level that breaks rule 29, if those before it can be stepped over.
fn first_over(data: &[u8]) -> Option<usize> {
    let mut rest = data;
    loop {
        let mut fields = Fields::of(rest);
        let (size, kind) = (fields.u32()?, fields.u32()?);
        let (size, header) = match size {
            1 => (fields.u64()?, 16),
            _ => (u64::from(size), 8),
        };
        if is_bounded(kind) && size > MAX_KEPT {
            return Some(data.len() - rest.len());
        }
        if size < header {
            return None;
        }
        rest = rest.get(usize::try_from(size).ok()?..)?;
    }
}
