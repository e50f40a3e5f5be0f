//! Drawing good tracks of rich variety.

use crate::node::Kind;
use crate::rng::Rng;
use crate::track::{Chunk, Defaults, Run, Sample, Track, NON_SYNC, SAMPLE_FIELDS};

pub const LAST_TICK: u64 = (1 << 63) - 1;
const MAX_SAMPLES: u64 = 65_536;
/// The most chunks that are drawn for a fragment, and for a track: more would need too many boxes.
const MAX_CHUNKS: u64 = 40;
const MAX_CHUNKS_IN_ALL: u64 = 80;

/// Handlers with their media headers.
pub const PAIRS: [(Kind, Kind); 3] =
    [(*b"vide", *b"vmhd"), (*b"soun", *b"smhd"), (*b"subt", *b"sthd")];

/// What the tracks of a set share. How each of them cuts its fragments into chunks is its own.
#[derive(Clone, Debug)]
pub struct Plan {
    pub handler: Kind,
    pub media_header: Kind,
    pub timescale: u32,
    pub boundaries: Vec<u64>,
}

impl Plan {
    pub fn draw(rng: &mut Rng) -> Plan {
        let (handler, media_header) = rng.pick(&PAIRS);
        let any = 1 + rng.u32() / 2;
        let timescale = rng.pick(&[1, 1000, 48_000, 90_000, u32::MAX, any]);
        let most = rng.pick(&[1, 2, 3, 5, 12]);
        let durations: Vec<u64> = (0..rng.within(1..=most)).map(|_| draw_duration(rng)).collect();
        let mut tick = draw_start(rng, durations.iter().sum());
        let mut boundaries = vec![tick];
        for duration in durations {
            tick += duration;
            boundaries.push(tick);
        }
        Plan { handler, media_header, timescale, boundaries }
    }
}

fn draw_duration(rng: &mut Rng) -> u64 {
    match rng.below(8) {
        0 => 1,
        1 => rng.within(1..=20),
        2 => rng.within(1..=65_536),
        3 => rng.within(1..=1 << 34),
        _ => rng.within(1..=20) * 9000,
    }
}

/// A start that leaves room for `duration`, often where some width of number ends.
fn draw_start(rng: &mut Rng, duration: u64) -> u64 {
    match rng.below(8) {
        0 => LAST_TICK - duration,
        1 => LAST_TICK - duration - rng.below(1000),
        2 => rng.within((1 << 32) - 20_000..=(1 << 32) + 20_000),
        3 => (1u64 << 32).saturating_sub(rng.within(0..=duration)),
        4 => rng.below(LAST_TICK - duration),
        5 => rng.below(1 << 31),
        _ => 0,
    }
}

/// A good track with the plan's handler, timescale and boundaries.
pub fn track(plan: &Plan, rng: &mut Rng) -> Track {
    let trex = draw_defaults(rng);
    let any_id = 1 + rng.u32() / 2;
    Track {
        track_id: rng.pick(&[1, 2, u32::MAX, any_id]),
        timescale: plan.timescale,
        handler: plan.handler,
        media_header: plan.media_header,
        brands: draw_brands(rng),
        mvhd_version: rng.below(2) as u8,
        tkhd_version: rng.below(2) as u8,
        mdhd_version: rng.below(2) as u8,
        edts: rng.chance(30),
        elng: rng.chance(30),
        trex,
        chunks: draw_chunks(plan, &trex, rng),
    }
}

fn draw_brands(rng: &mut Rng) -> Vec<Kind> {
    let others = [*b"iso6", *b"cmff", *b"dash", *b"cfhd", *b"CMFC", *b"cmf2", *b"cmfc"];
    let mut brands: Vec<Kind> = (0..rng.below(5)).map(|_| rng.pick(&others)).collect();
    brands.push(rng.pick(&[*b"cmfc", *b"cmf2"]));
    rng.shuffle(&mut brands);
    brands
}

fn draw_defaults(rng: &mut Rng) -> Defaults {
    let any = rng.u32() >> 12;
    Defaults {
        duration: rng.pick(&[0, 1, 3, 9000, u32::MAX, any]),
        size: rng.pick(&[0, 1, 7, 20]),
        flags: draw_flags(rng),
    }
}

fn draw_flags(rng: &mut Rng) -> u32 {
    match rng.below(4) {
        0 => 0,
        1 => NON_SYNC,
        2 => !NON_SYNC,
        _ => rng.u32(),
    }
}

/// The chunks of all fragments: in each the first is sync, and no other.
fn draw_chunks(plan: &Plan, trex: &Defaults, rng: &mut Rng) -> Vec<Chunk> {
    let most = rng.pick(&[1, 1, 1, 2, 3, 6, MAX_CHUNKS]);
    let mut chunks = Vec::new();
    for span in plan.boundaries.windows(2) {
        let room = MAX_CHUNKS_IN_ALL.saturating_sub(chunks.len() as u64).max(1);
        // Each lasts a tick at least.
        let most = most.min(room).min(span[1] - span[0]);
        let any = rng.within(1..=most);
        let count = rng.pick(&[1, most, any, any]);
        let mut start = span[0];
        for left in (1..=count).rev() {
            let duration = draw_part(span[1] - start, left, rng);
            let mut chunk = draw_chunk(start, duration, trex, rng);
            make_sync(&mut chunk, trex, left == count, rng);
            chunks.push(chunk);
            start += duration;
        }
    }
    chunks
}

/// The first of so many parts of a duration, each a tick at least.
fn draw_part(duration: u64, parts: u64, rng: &mut Rng) -> u64 {
    if parts == 1 {
        return duration;
    }
    let equal = duration / parts;
    let near = rng.within(1..=(2 * equal).min(duration - (parts - 1)));
    rng.pick(&[equal, near, near, 1])
}

/// A chunk whose first sample is as it comes.
fn draw_chunk(start: u64, duration: u64, trex: &Defaults, rng: &mut Rng) -> Chunk {
    let optional = [0, 0x2, 0x8, 0x10, 0x20].into_iter();
    let chosen: u32 = optional.filter(|_| rng.chance(40)).sum();
    // Flags that no rule names are ignored.
    let ignored = if rng.chance(20) { rng.u32() & 0xFC_FFC4 } else { 0 };
    let mut chunk = Chunk {
        start,
        wide_tfdt: start >> 32 != 0 || rng.chance(50),
        tfhd_flags: 0x02_0000 | chosen | ignored,
        tfhd: draw_defaults(rng),
        runs: Vec::new(),
    };
    let is_full = rng.chance(3);
    if is_full {
        // Samples that cost nothing, to have as many as there may be.
        chunk.tfhd_flags |= 0x18;
        (chunk.tfhd.duration, chunk.tfhd.size) = (0, 0);
    }
    let mut durations = Durations { left: duration, samples: 0, defaults: chunk.defaults(trex) };
    chunk.runs = durations.runs(rng);
    if is_full {
        let missing = MAX_SAMPLES - durations.samples;
        chunk.runs.push(durations.run(missing, vec![], false, rng));
    }
    rng.shuffle(&mut chunk.runs);
    if rng.chance(10) {
        // What an empty run says of a first sample is of no matter.
        let empty = (0..rng.within(1..=3))
            .map(|_| durations.run(0, vec![], false, rng))
            .collect::<Vec<_>>();
        chunk.runs.splice(0..0, empty);
    }
    chunk.runs[0].flags |= 0x1;
    chunk
}

/// Hands out a chunk's duration to runs.
struct Durations {
    left: u64,
    samples: u64,
    defaults: Defaults,
}

impl Durations {
    fn runs(&mut self, rng: &mut Rng) -> Vec<Run> {
        let most = rng.pick(&[0, 0, 1, 3, 8]);
        let mut runs: Vec<Run> = (0..rng.within(0..=most)).map(|_| self.some(rng)).collect();
        let last = self.rest(rng);
        runs.push(last);
        runs
    }

    /// A run that takes any part of what is left, or none.
    fn some(&mut self, rng: &mut Rng) -> Run {
        if rng.chance(20) {
            return self.run(0, vec![], false, rng);
        }
        let count = rng.within(1..=6);
        let product = count * u64::from(self.defaults.duration);
        if product <= self.left && rng.chance(60) {
            self.left -= product;
            return self.run(count, vec![], false, rng);
        }
        let durations = (0..count).map(|_| self.take(rng)).collect();
        self.run(count, durations, true, rng)
    }

    fn take(&mut self, rng: &mut Rng) -> u32 {
        let most = self.left.min(u64::from(u32::MAX));
        let part = if rng.chance(20) { 0 } else { rng.within(0..=most) };
        self.left -= part;
        part as u32
    }

    /// The run that takes all that is left.
    fn rest(&mut self, rng: &mut Rng) -> Run {
        let default = u64::from(self.defaults.duration);
        let fits = |count: u64| count > 0 && count <= MAX_SAMPLES - self.samples;
        if default != 0 && self.left.is_multiple_of(default) && fits(self.left / default) {
            let count = self.left / default;
            if rng.chance(70) {
                self.left = 0;
                return self.run(count, vec![], false, rng);
            }
        }
        let mut durations: Vec<u32> = (0..rng.below(6)).map(|_| self.take(rng)).collect();
        while self.left > 0 || durations.is_empty() {
            let part = self.left.min(u64::from(u32::MAX));
            durations.push(part as u32);
            self.left -= part;
        }
        rng.shuffle(&mut durations);
        self.run(durations.len() as u64, durations, true, rng)
    }

    /// A run of so many samples; its other fields are drawn.
    fn run(&mut self, count: u64, durations: Vec<u32>, own: bool, rng: &mut Rng) -> Run {
        self.samples += count;
        let many = count > 64;
        let mut flags = if own { 0x100 } else { 0 };
        flags |=
            [0x1, 0x4, 0x200, 0x400, 0x800].into_iter().filter(|_| rng.chance(40)).sum::<u32>();
        if rng.chance(20) {
            flags |= rng.u32() & 0xFF_F0FA; // ignored
        }
        if flags & 0x404 == 0x404 {
            flags &= rng.pick(&[!0x400, !0x4]);
        }
        if many {
            // Either small in bytes or, seldom, one size a sample.
            flags &= !0xE00;
            if self.defaults.size != 0 {
                flags |= 0x200;
            }
        }
        let mut samples = Vec::new();
        if flags & SAMPLE_FIELDS != 0 {
            samples = (0..count).map(|_| draw_sample(many, rng)).collect();
        }
        for (sample, duration) in samples.iter_mut().zip(durations) {
            sample.duration = duration;
        }
        Run {
            version: rng.below(2) as u8,
            flags,
            count: count as u32,
            first_sample_flags: draw_flags(rng),
            samples,
            offset_error: 0,
        }
    }
}

fn draw_sample(small: bool, rng: &mut Rng) -> Sample {
    Sample {
        duration: 0,
        size: if small { 0 } else { rng.pick(&[0, 1, 5, 30]) },
        flags: draw_flags(rng),
        composition: rng.u32(),
    }
}

/// Makes the chunk's first sample sync or non-sync: at the source that decides it, or at one that
/// stands before a default.
pub fn make_sync(chunk: &mut Chunk, trex: &Defaults, is_sync: bool, rng: &mut Rng) {
    let put = |flags: &mut u32| match is_sync {
        true => *flags &= !NON_SYNC,
        false => *flags |= NON_SYNC,
    };
    let run = first_with_sample(chunk);
    put(&mut run.first_sample_flags);
    if let Some(sample) = run.samples.first_mut() {
        put(&mut sample.flags);
    }
    if run.flags & 0x404 != 0 {
        return;
    }
    // A default decides, and that of `trex` is for all chunks.
    let has_fields = !run.samples.is_empty();
    let is_right = (chunk.defaults(trex).flags & NON_SYNC == 0) == is_sync;
    match rng.below(3) {
        _ if is_right => (),
        0 => {
            chunk.tfhd_flags |= 0x20;
            put(&mut chunk.tfhd.flags);
        }
        1 if has_fields => first_with_sample(chunk).flags |= 0x400,
        _ => first_with_sample(chunk).flags |= 0x4,
    }
}

/// The run of the chunk's first sample.
pub fn first_with_sample(chunk: &mut Chunk) -> &mut Run {
    chunk.runs.iter_mut().find(|run| run.count > 0).expect("a chunk has a sample")
}

#[cfg(test)]
mod tests {
    use super::*;

    fn tracks() -> impl Iterator<Item = (Plan, Track)> {
        let mut rng = Rng::new(8);
        std::iter::repeat_with(move || {
            let plan = Plan::draw(&mut rng);
            let track = track(&plan, &mut rng);
            (plan, track)
        })
        .take(3000)
    }

    /// Which source decides a chunk's first sample, and how many runs before it are empty.
    fn source(chunk: &Chunk) -> (usize, usize) {
        let empty = chunk.runs.iter().take_while(|run| run.count == 0).count();
        let source = match (chunk.runs[empty].flags & 0x404, chunk.tfhd_flags & 0x20) {
            (0, 0) => 0,
            (0, _) => 1,
            (0x400, _) => 2,
            _ => 3,
        };
        (source, empty)
    }

    /// However the fragments are cut into chunks, the boundaries are the plan's.
    #[test]
    fn boundaries_are_as_planned() {
        for (plan, track) in tracks() {
            assert_eq!(track.boundaries(), plan.boundaries);
            assert!((1..track.chunks.len()).all(|n| track.chunks[n].start == track.end_before(n)));
        }
    }

    /// Every number of chunks from 1 to the most, and in one fragment more samples than a chunk may have.
    #[test]
    fn fragments_of_many_chunks() {
        let mut lengths = [0; MAX_CHUNKS as usize + 1];
        let mut most_samples = 0;
        for (_, track) in tracks() {
            let mut firsts = track.fragments();
            firsts.push(track.chunks.len());
            for fragment in firsts.windows(2).map(|ends| &track.chunks[ends[0]..ends[1]]) {
                lengths[fragment.len()] += 1;
                let runs = fragment.iter().flat_map(|chunk| &chunk.runs);
                most_samples = most_samples.max(runs.map(|run| u64::from(run.count)).sum());
            }
        }
        assert!(lengths[1..].iter().all(|times| *times > 0), "{lengths:?}");
        assert!(most_samples > MAX_SAMPLES);
    }

    /// Each source makes first chunks, those that begin later fragments and those that do not, with and
    /// without empty runs before.
    #[test]
    fn sources_of_flags() {
        let mut reached = [[[0; 2]; 4]; 3];
        for (_, track) in tracks() {
            for (nth, chunk) in track.chunks.iter().enumerate() {
                let place = if nth == 0 { 0 } else { 1 + usize::from(!chunk.is_sync(&track.trex)) };
                let (source, empty) = source(chunk);
                reached[place][source][empty.min(1)] += 1;
            }
        }
        assert!(
            reached.as_flattened().as_flattened().iter().all(|times| *times >= 20),
            "{reached:?}"
        );
    }
}
