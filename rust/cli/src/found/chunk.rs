//! Numbers 15 to 22: a chunk.

use super::{contrast, counted, many, said, size_and_version, Contrast};
use crate::samples::{first_flags, runs, trex, Run, Source};
use crate::time::seconds;
use crate::view::View;

/// Rule 15: the size that version, flags and sample count ask for.
pub fn body(view: View, at: usize) -> Option<Contrast> {
    let body = view.body(at);
    let flags = body.flags().unwrap_or(0);
    let set = |masks: &[u32]| masks.iter().filter(|mask| flags & **mask != 0).count() as u64;
    let longer = body.header - 8;
    let (size, versions, because) = match &view.boxes[at].kind {
        b"mfhd" => (16, "0", String::new()),
        b"tfhd" => (
            16 + 8 * set(&[1]) + 4 * set(&[2, 8, 0x10, 0x20]),
            "0",
            format!(" with flags {flags:#x}"),
        ),
        b"tfdt" if body.version() == Some(1) => (20, "1", String::new()),
        b"tfdt" => (16, "0", " (20 with version 1)".to_owned()),
        _ => {
            let samples = u64::from(body.word(4).unwrap_or(0));
            let each = 4 * set(&[0x100, 0x200, 0x400, 0x800]);
            let because = format!(" with flags {flags:#x} and {}", many(samples, "sample"));
            (16 + 4 * set(&[1, 4]) + samples * each, "0 or 1", because)
        }
    };
    let size = size + longer;
    contrast(
        size_and_version(view, at),
        counted(size, format!("{size} bytes{because}, version {versions}")),
    )
}

pub fn flags(view: View, at: usize) -> Option<Contrast> {
    let flags = view.body(at).flags()?;
    let expected = match &view.boxes[at].kind {
        b"tfhd" if flags & 0x1 != 0 => "no base data offset (0x1)",
        b"tfhd" if flags & 0x1_0000 != 0 => "not 'duration is empty' (0x10000)",
        b"tfhd" => "'default base is moof' (0x20000)",
        _ => "not both 0x4 (first-sample flags) and 0x400 (flags of each sample)",
    };
    contrast(counted(flags, format!("flags {flags:#x}")), said(expected))
}

pub fn sample_count(view: View, traf: usize) -> Option<Contrast> {
    let truns = view.inside(Some(traf)).filter(|nth| view.boxes[*nth].kind == *b"trun");
    let samples: u64 = truns.filter_map(|nth| view.body(nth).word(4)).map(u64::from).sum();
    contrast(counted(samples, many(samples, "sample")), said("1 to 65536 samples"))
}

pub fn decode_time(view: View, at: usize, end: u64, timescale: u64) -> Option<Contrast> {
    let found = view.body(at).decode_time()?;
    let words = |ticks| format!("decode time {ticks} ({})", seconds(ticks, timescale));
    contrast(
        counted(found, words(found)),
        counted(end, format!("{}, where the chunk before ended", words(end))),
    )
}

pub fn duration(view: View, at: usize) -> Option<Contrast> {
    let (moof, runs) = runs_around(view, at)?;
    let duration: u64 = runs.iter().map(|run| run.duration).sum();
    if duration == 0 {
        return contrast(counted(0, "durations that sum to 0"), said("a sum of 1 tick or more"));
    }
    let traf = view.child(Some(moof), b"traf")?;
    let start = view.body(view.child(Some(traf), b"tfdt")?).decode_time()?;
    let end = i128::from(start) + i128::from(duration);
    let last = i64::MAX;
    contrast(
        counted(end, format!("an end at tick {end}, from {start} on {duration} ticks")),
        counted(last, format!("an end at tick {last} or before")),
    )
}

pub fn sync(view: View, at: usize) -> Option<Contrast> {
    let (_, runs) = runs_around(view, at)?;
    let (flags, source) = first_flags(&runs)?;
    let source = match source {
        Source::FirstSample => "the first-sample flags of the run",
        Source::Run => "the run's own flags of that sample",
        Source::Tfhd => "the default flags of tfhd",
        Source::Trex => "the default flags of trex",
    };
    contrast(
        counted(flags, format!("flags {flags:#010x} of the track's first sample, by {source}")),
        said("the bit 0x00010000 (non-sync) clear"),
    )
}

pub fn tiling(view: View, at: usize) -> Option<Contrast> {
    let (moof, runs) = runs_around(view, at)?;
    let mdat = view.inside(None).find(|nth| *nth > moof)?;
    let first = view.boxes[moof].size + view.body(mdat).header;
    let before: u64 = runs.iter().take_while(|run| run.nth != at).map(|run| run.size).sum();
    if view.boxes[at].kind == *b"mdat" {
        let payload = view.body(at).bytes.len() as i128;
        return contrast(
            counted(payload, format!("{} of data", many(payload, "byte"))),
            counted(before, format!("{}, the sum of the sample sizes", many(before, "byte"))),
        );
    }
    let found = match runs.iter().find(|run| run.nth == at)?.offset {
        Some(offset) => counted(offset, format!("data offset {offset}")),
        None => said("no data offset"),
    };
    let expected = first + before;
    contrast(found, counted(expected, format!("data offset {expected}")))
}

/// The runs of the chunk that a box belongs to, and the number of its `moof`.
fn runs_around(view: View, at: usize) -> Option<(usize, Vec<Run>)> {
    let moof = (0..=view.top(at))
        .rev()
        .find(|nth| view.boxes[*nth].depth == 0 && view.boxes[*nth].kind == *b"moof")?;
    Some((moof, runs(view, moof, trex(view))?))
}
