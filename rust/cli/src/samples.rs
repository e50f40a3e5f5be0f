//! What a chunk's runs say of its samples, read from the bytes to explain a verdict; it never
//! changes the verdict.

use crate::view::{Body, View};

/// The bit of a sample's flags that says so.
pub const NON_SYNC: u32 = 0x0001_0000;

/// Where a sample's flags come from.
#[derive(Clone, Copy, Debug, PartialEq, Eq)]
pub enum Source {
    FirstSample,
    Run,
    Tfhd,
    Trex,
}

/// A `trun`, with the defaults that its samples fall back to.
#[derive(Debug)]
pub struct Run {
    /// The number of its box.
    pub nth: usize,
    pub offset: Option<i32>,
    pub samples: u64,
    /// Of all its samples.
    pub duration: u64,
    /// Of all its samples.
    pub size: u64,
    /// Of its first sample.
    pub flags: (u32, Source),
}

struct Defaults {
    duration: u32,
    size: u32,
    flags: (u32, Source),
}

/// The flags of a chunk's first sample, that of the first run that has one.
pub fn first_flags(runs: &[Run]) -> Option<(u32, Source)> {
    Some(runs.iter().find(|run| run.samples > 0)?.flags)
}

/// The `trex`, looked for once a track: it may stand behind many boxes, or not at all.
pub fn trex(view: View) -> Option<Body> {
    Some(view.body(view.find(&[b"moov", b"mvex", b"trex"])?))
}

/// The runs of a chunk, by the number of its `moof`; `None` where a box is missing or too short.
pub fn runs(view: View, moof: usize, trex: Option<Body>) -> Option<Vec<Run>> {
    let (traf, trex) = (view.child(Some(moof), b"traf")?, trex?);
    let tfhd = view.body(view.child(Some(traf), b"tfhd")?);
    let defaults = defaults(tfhd, trex)?;
    let truns = view.inside(Some(traf)).filter(|nth| view.boxes[*nth].kind == *b"trun");
    truns.map(|nth| run(nth, view.body(nth), &defaults)).collect()
}

/// The defaults of `tfhd`, and where it has none those of `trex`.
fn defaults(tfhd: Body, trex: Body) -> Option<Defaults> {
    let flags = tfhd.flags()?;
    // Fields stand in the order of their flags: base offset, description, duration, size, flags.
    let before = |flag: u32| {
        let wide = if flags & 0x1 != 0 { 8 } else { 0 };
        let narrow =
            [0x2, 0x8, 0x10].into_iter().filter(|other| *other < flag && flags & other != 0);
        8 + wide + 4 * narrow.count()
    };
    let own = |flag: u32| if flags & flag == 0 { None } else { Some(tfhd.word(before(flag))) };
    Some(Defaults {
        duration: own(0x8).unwrap_or_else(|| trex.word(12))?,
        size: own(0x10).unwrap_or_else(|| trex.word(16))?,
        flags: match own(0x20) {
            Some(flags) => (flags?, Source::Tfhd),
            None => (trex.word(20)?, Source::Trex),
        },
    })
}

fn run(nth: usize, trun: Body, defaults: &Defaults) -> Option<Run> {
    let flags = trun.flags()?;
    let samples = trun.word(4)?;
    let mut at = 8;
    let mut next_if = |flag: u32| {
        let there = flags & flag != 0;
        at += if there { 4 } else { 0 };
        there.then(|| trun.word(at - 4))
    };
    let offset = match next_if(0x1) {
        Some(offset) => Some(offset?.cast_signed()),
        None => None,
    };
    let first_flags = next_if(0x4);
    // The fields that each sample carries, 4 bytes each, and where one of them stands in it.
    let carried = |flag: u32| flags & flag != 0;
    let fields = [0x100, 0x200, 0x400, 0x800].into_iter().filter(|flag| carried(*flag)).count();
    let position =
        |flag: u32| [0x100, 0x200].into_iter().filter(|f| *f < flag && carried(*f)).count();
    let field = |sample: u64, flag: u32| {
        let sample = usize::try_from(sample).ok()?;
        trun.word(sample.checked_mul(4 * fields)?.checked_add(at + 4 * position(flag))?)
    };
    let total = |flag: u32, default: u32| {
        if !carried(flag) {
            return Some(u64::from(samples) * u64::from(default));
        }
        (0..u64::from(samples))
            .try_fold(0_u64, |sum, sample| Some(sum + u64::from(field(sample, flag)?)))
    };
    let first = match first_flags {
        Some(flags) => (flags?, Source::FirstSample),
        None if carried(0x400) && samples > 0 => (field(0, 0x400)?, Source::Run),
        None => defaults.flags,
    };
    Some(Run {
        nth,
        offset,
        samples: u64::from(samples),
        duration: total(0x100, defaults.duration)?,
        size: total(0x200, defaults.size)?,
        flags: first,
    })
}

#[cfg(test)]
mod tests {
    use super::*;
    use crate::judge;
    use maker::cases::Job;
    use maker::examples::examples;

    /// On every accepted track the durations sum to the distance of the proved boundaries, and in each
    /// chunk the sizes to the data.
    #[test]
    fn sums_of_accepted_tracks() {
        let mut chunks = 0;
        for example in examples().into_iter().filter(|example| example.case.job == Job::Track) {
            let bytes = &example.case.bytes;
            let judged = judge::track(bytes);
            if !judged.verdict.is_accepted() {
                continue;
            }
            let boxes = judge::index(bytes).unwrap();
            let view = View { bytes, boxes: &boxes };
            let moofs = view.inside(None).filter(|nth| boxes[*nth].kind == *b"moof");
            let mut at = judged.boundaries[0];
            for moof in moofs {
                let runs = runs(view, moof, trex(view)).unwrap();
                at += runs.iter().map(|run| run.duration).sum::<u64>();
                let mdat = view.inside(None).find(|nth| *nth > moof).unwrap();
                let size: u64 = runs.iter().map(|run| run.size).sum();
                assert_eq!(size, view.body(mdat).bytes.len() as u64, "{}", example.name);
                chunks += 1;
            }
            assert_eq!(Some(&at), judged.boundaries.last(), "{}", example.name);
        }
        assert!(chunks > 50, "{chunks} chunks");
    }
}
