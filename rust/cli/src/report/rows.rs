//! What is drawn of each track: the boundaries of the fragments that the track job accepts, with
//! the chunks inside them, then what the bytes say of the chunks after those.

use super::scale::Moment;
use crate::chunks::{chunks, Chunk};
use crate::facts::{Set, Track};
use crate::found;
use crate::judge;
use crate::place::{bare_moof, spot};

pub struct Row<'a> {
    pub name: &'a str,
    /// The name without the folders that all tracks share.
    pub label: &'a str,
    /// Not 0 where anything is drawn.
    pub timescale: u64,
    /// The starts of the fragments before the refused chunk, and where the last of them ends there;
    /// all of them in a good track.
    pub judged: Vec<u64>,
    /// Where the chunks of those fragments start, and the last one ends.
    pub parts: Vec<u64>,
    /// Whether the last of those fragments goes on in the refused chunk.
    pub open: bool,
    /// The chunks after those, by the bytes alone.
    pub read: Vec<Read>,
    /// What is said at its end, and below it of a track with several chunks in a fragment.
    pub says: String,
    pub chunks: Option<String>,
}

/// A chunk as its bytes have it. Nothing says that they are right.
#[derive(Clone, Copy, Debug, PartialEq, Eq)]
pub struct Read {
    pub number: u64,
    /// Where it is known.
    pub fragment: Option<u64>,
    pub begins: bool,
    pub start: u64,
    pub end: u64,
}

impl Read {
    /// Whether it is known to go on with the fragment before it.
    pub fn continues(&self) -> bool {
        self.fragment.is_some() && !self.begins
    }
}

/// A row a track; `tracks` is empty where none was looked at.
pub fn rows<'a>(set: &'a Set, tracks: &[Track]) -> Vec<Row<'a>> {
    let shared = shared_folder(&set.names);
    let row = |(nth, name): (usize, &'a String)| {
        let row = Row::empty(name, &name[shared..]);
        tracks.get(nth).map_or(row, |track| Row::of(name, &name[shared..], track))
    };
    set.names.iter().enumerate().map(row).collect()
}

impl<'a> Row<'a> {
    fn empty(name: &'a str, label: &'a str) -> Row<'a> {
        Row {
            name,
            label,
            timescale: 0,
            judged: vec![],
            parts: vec![],
            open: false,
            read: vec![],
            says: "not looked at".to_owned(),
            chunks: None,
        }
    }

    fn of(name: &'a str, label: &'a str, track: &Track) -> Row<'a> {
        let verdict = &track.alone.verdict;
        let timescale = found::timescale(track.view()).unwrap_or(0);
        let Front { judged, cut } = front(track);
        let all = chunks(track);
        let before = all.iter().take_while(|chunk| !judged.is_empty() && chunk.moof < cut);
        let before = before.count();
        let starts = all[..before].iter().filter_map(|chunk| chunk.times).map(|(start, _)| start);
        let parts = starts.chain(judged.last().copied()).collect();
        let open = before > 0 && all.get(before).is_some_and(|next| next.continues());
        let says = match (verdict.number, verdict.count) {
            (0, count) => found::many(count, "fragment"),
            (number, _) => format!("refused {number}"),
        };
        let number = all.len() as u64;
        let several = verdict.is_accepted() && number != verdict.count;
        let read = if timescale == 0 { vec![] } else { after(&all[before..]) };
        Row {
            name,
            label,
            timescale,
            judged,
            parts,
            open,
            read,
            says,
            chunks: several.then(|| found::many(number, "chunk")),
        }
    }

    pub fn is_empty(&self) -> bool {
        self.judged.is_empty() && self.read.is_empty()
    }

    /// Where the judged fragments begin and the last one ends, as far as it does so.
    pub fn boundaries(&self) -> &[u64] {
        &self.judged[..self.judged.len() - usize::from(self.open)]
    }

    /// Where a judged fragment goes on with its next chunk.
    pub fn between(&self) -> Vec<u64> {
        let inside = |part: &&u64| self.boundaries().binary_search(part).is_err();
        self.parts.iter().filter(inside).copied().collect()
    }

    pub fn at(&self, ticks: u64) -> Moment {
        Moment::new(ticks, self.timescale)
    }

    /// The length of the fragment before a tick, to guess by how far to look around it.
    pub fn fragment_before(&self, ticks: u64) -> Option<u64> {
        length_before(&self.judged, ticks)
    }

    /// The length of the chunk before a tick, to guess that of one whose end can't be read.
    pub fn chunk_before(&self, ticks: u64) -> Option<u64> {
        length_before(&self.parts, ticks)
    }
}

fn length_before(edges: &[u64], ticks: u64) -> Option<u64> {
    let nth = edges.partition_point(|edge| *edge < ticks);
    let nth = nth.clamp(1, edges.len().checked_sub(1)?.max(1));
    Some(edges.get(nth)? - edges[nth - 1])
}

/// What the track job accepts: all of the track, else the bytes before the refused chunk.
struct Front {
    judged: Vec<u64>,
    /// Where the bytes end that it judged.
    cut: u64,
}

fn front(track: &Track) -> Front {
    let verdict = &track.alone.verdict;
    if verdict.is_accepted() {
        return Front { judged: track.alone.boundaries.clone(), cut: track.bytes.len() as u64 };
    }
    let view = track.view();
    let top = view.at(verdict.place).map(|nth| view.boxes[view.top(nth)].offset);
    let moof = spot(view, verdict.place).chunk.map(|(_, moof)| moof);
    let cut = moof.or(top).unwrap_or(verdict.place);
    // A `moof` without its `mdat` is no chunk yet.
    let cut = bare_moof(view, cut).unwrap_or(cut);
    let before = usize::try_from(cut).ok().and_then(|cut| track.bytes.get(..cut));
    let judged = before.map_or(vec![], |bytes| judge::track(bytes).boundaries);
    Front { judged, cut }
}

/// Chunks behind the front, where their times can be read.
fn after(chunks: &[Chunk]) -> Vec<Read> {
    let read = chunks.iter().filter_map(|chunk| {
        let Chunk { number, fragment, begins, times, .. } = *chunk;
        let (start, end) = times?;
        Some(Read { number, fragment, begins, start, end })
    });
    read.collect()
}

/// The length of the folders that all names begin with.
fn shared_folder(names: &[String]) -> usize {
    let Some(first) = names.first() else { return 0 };
    let folders = first.char_indices().filter(|(_, letter)| *letter == '/').map(|(at, _)| at + 1);
    let shared = |end: &usize| names.iter().all(|name| name.starts_with(&first[..*end]));
    folders.take_while(shared).last().unwrap_or(0)
}

#[cfg(test)]
mod tests {
    use super::*;

    #[test]
    fn folders_that_all_share() {
        let shared = |names: &[&str]| {
            shared_folder(&names.iter().map(|name| name.to_string()).collect::<Vec<_>>())
        };
        assert_eq!(shared(&["a/b/low.mp4"]), 4);
        assert_eq!(shared(&["a/b/v.mp4", "a/c/v.mp4"]), 2);
        assert_eq!(shared(&["ab/v.mp4", "a/v.mp4"]), 0);
        assert_eq!(shared(&["/v.mp4", "/w.mp4"]), 1);
        assert_eq!(shared(&[]), 0);
    }
}
