//! A track's chunks, each a `moof` and its `mdat`, and the fragments that they make: a chunk whose
//! first sample is sync begins a fragment, any other continues it. Read from the bytes to explain a
//! verdict; it never changes the verdict.

use crate::facts::Track;
use crate::place::spot;
use crate::samples::{first_flags, runs, trex, Run, NON_SYNC};
use crate::view::View;

/// A chunk as its bytes have it. Nothing says that they are right.
#[derive(Clone, Copy, Debug, PartialEq, Eq)]
pub struct Chunk {
    /// Counted from 0.
    pub number: u64,
    /// The offset of its `moof`.
    pub moof: u64,
    /// Counted from 0; `None` where a first sample up to this chunk can't be read.
    pub fragment: Option<u64>,
    /// Whether it is the first one of its fragment, as far as that is known.
    pub begins: bool,
    /// Start and end: its `tfdt`, and that plus the durations.
    pub times: Option<(u64, u64)>,
}

impl Chunk {
    /// Whether it is known to go on with the fragment before it.
    pub fn continues(&self) -> bool {
        self.fragment.is_some() && !self.begins
    }
}

/// The chunks of a track, in byte order.
pub fn chunks(track: &Track) -> Vec<Chunk> {
    let view = track.view();
    let (untold, trex) = (untold(track), trex(view));
    let moofs = view.inside(None).filter(|nth| view.boxes[*nth].kind == *b"moof");
    let mut fragment = None;
    let mut known = true;
    let read = |(number, nth): (u64, usize)| {
        let runs = if untold == Some(number) { None } else { runs(view, nth, trex) };
        // The track's first chunk begins a fragment in any case.
        let sync = runs.as_deref().and_then(first_flags).map(|(flags, _)| flags & NON_SYNC == 0);
        let begins = number == 0 || sync == Some(true);
        known &= number == 0 || sync.is_some();
        if begins {
            fragment = Some(fragment.map_or(0, |before: u64| before + 1));
        }
        Chunk {
            number,
            moof: view.boxes[nth].offset,
            fragment: fragment.filter(|_| known),
            begins: begins && known,
            times: runs.and_then(|runs| times(view, nth, &runs)),
        }
    };
    (0..).zip(moofs).map(read).collect()
}

/// The ticks at which chunks start, a row a fragment.
pub fn starts(track: &Track) -> Vec<Vec<u64>> {
    let mut rows: Vec<Vec<u64>> = Vec::new();
    for chunk in chunks(track) {
        let Some((start, _)) = chunk.times else { continue };
        match rows.last_mut() {
            Some(row) if !chunk.begins => row.push(start),
            _ => rows.push(vec![start]),
        }
    }
    rows
}

/// The refused chunk under 14 and 15: boxes that are missing, doubled or misshapen tell nothing.
fn untold(track: &Track) -> Option<u64> {
    let verdict = &track.alone.verdict;
    let refused = || spot(track.view(), verdict.place).chunk.map(|(number, _)| number);
    matches!(verdict.number, 14 | 15).then(refused).flatten()
}

fn times(view: View, moof: usize, runs: &[Run]) -> Option<(u64, u64)> {
    let traf = view.child(Some(moof), b"traf")?;
    let start = view.body(view.child(Some(traf), b"tfdt")?).decode_time()?;
    let end = runs.iter().try_fold(start, |at, run| at.checked_add(run.duration))?;
    Some((start, end))
}

#[cfg(test)]
mod tests {
    use super::*;
    use maker::cases::{Case, Job};
    use maker::examples::examples;
    use maker::mix::draw;
    use maker::rng::Rng;

    /// Of an accepted track the fragments that are read here have the proved boundaries, and its
    /// chunks follow each other; answers chunks and fragments.
    fn look(case: &Case, name: &str) -> (usize, usize) {
        let track = Track::of("a", &case.bytes);
        if !track.alone.verdict.is_accepted() {
            return (0, 0);
        }
        let chunks = chunks(&track);
        let times: Vec<(u64, u64)> = chunks.iter().map(|chunk| chunk.times.unwrap()).collect();
        assert!(times.windows(2).all(|two| two[0].1 == two[1].0), "{name}: {times:?}");
        let starts = starts(&track);
        let firsts = starts.iter().map(|row| row[0]).chain([times[times.len() - 1].1]);
        assert_eq!(firsts.collect::<Vec<_>>(), track.alone.boundaries, "{name}");
        let last = chunks[chunks.len() - 1].fragment;
        assert_eq!(last, Some(track.alone.verdict.count - 1), "{name}");
        (chunks.len(), starts.len())
    }

    #[test]
    fn fragments_of_accepted_tracks() {
        let (mut chunks, mut fragments) = (0, 0);
        let mut add = |(more, few): (usize, usize)| {
            chunks += more;
            fragments += few;
        };
        for example in examples().into_iter().filter(|example| example.case.job == Job::Track) {
            add(look(&example.case, &example.name));
        }
        for case in 0..2000 {
            let drawn = draw(Job::Track, &mut Rng::of_case(13, case));
            add(look(&drawn, &format!("drawn {case}")));
        }
        assert!(fragments > 200 && chunks > 2 * fragments, "{chunks} in {fragments}");
    }
}
