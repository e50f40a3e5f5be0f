//! The job `sums`: long sample tables, whose durations and sizes the drawing adds up itself.

use crate::drawn::report;
use crate::histogram::Histogram;
use crate::judge::Judge;
use crate::run::compare;
use maker::cases::Job;
use maker::draw::{make_sync, LAST_TICK};
use maker::node::{self, Content};
use maker::rng::Rng;
use maker::track::{Chunk, Defaults, Fill, Run, Sample, Track, SAMPLE_FIELDS};

/// So that a case's bytes are not those of another job's case.
const STREAM: u64 = 0x7375_6D73;
/// A run of so many cases must reach the numbers that cases are made for.
const LARGE: u64 = 1000;
/// Lengths of runs at which a sum in parts may carry or end, and the most.
const COUNTS: [u64; 10] = [7, 8, 9, 255, 256, 257, 511, 512, 513, 769];
const MOST_SAMPLES: u64 = 1200;
const MOST_SIZE: u64 = 200_000;
/// The most bytes of all samples.
const MOST_BYTES: u64 = 250_000_000;

/// A track, the number that it is made for, and its boundaries where that is 0.
struct Case {
    bytes: Vec<u8>,
    number: u64,
    boundaries: Vec<u64>,
}

/// Tries cases `from` to `from + cases`.
pub fn run(tried: Judge, seed: u64, from: u64, cases: u64) -> Result<(), String> {
    let mut histogram = Histogram::default();
    for number in from..from.saturating_add(cases) {
        let mut rng = Rng::of_case(seed ^ STREAM, number);
        let case = draw(&mut rng);
        agreed(tried, &case, &mut rng)
            .map_err(|said| report("sums", seed, number, &case.bytes, &said))?;
        histogram.add(case.number);
    }
    histogram.print("sums");
    let missed = histogram.missed([0, 19, 22].into_iter());
    match missed.is_empty() || cases < LARGE {
        true => Ok(()),
        false => Err(format!("no case of the job sums reached {missed:?}")),
    }
}

/// The first difference between a judge, the reference and the drawing.
fn agreed(tried: Judge, case: &Case, rng: &mut Rng) -> Result<(), String> {
    let Case { bytes, number, boundaries } = case;
    let room = boundaries.len() + rng.pick(&[0, 0, 1, 40]);
    let mut table: Vec<u64> = (0..room).map(|_| rng.next()).collect();
    let verdict = compare(tried, Job::Track, bytes, &mut table)?;
    if verdict.number != *number {
        return Err(format!("made for {number}, both say {verdict:?}"));
    }
    let count = boundaries.len() as u64 - 1;
    if *number == 0 && (verdict.count != count || !table.starts_with(boundaries)) {
        return Err(format!("drawn for {boundaries:?}, both say {verdict:?} and {table:?}"));
    }
    Ok(())
}

/// How the values of a field are drawn, those of a run alike.
#[derive(Clone, Copy)]
enum Values {
    All(u32),
    UpTo(u32),
    /// One byte of each is 0xFF, the others are 0.
    OneByte,
}

impl Values {
    fn durations(rng: &mut Rng) -> Values {
        match rng.below(5) {
            0 => Values::All(u32::MAX),
            1 => Values::UpTo(u32::MAX),
            2 => Values::All(0xFF << (8 * rng.below(4))),
            3 => Values::OneByte,
            _ => Values::UpTo(rng.pick(&[1, 255, 5000])),
        }
    }

    /// Seldom large.
    fn sizes(most: u32, rng: &mut Rng) -> Values {
        match rng.below(40) {
            0 => Values::UpTo(most),
            1 => Values::All(rng.pick(&[0xFF00, most]).min(most)),
            2..=9 => Values::All(0xFF),
            _ => Values::UpTo(rng.pick(&[0, 1, 20, 255, 300])),
        }
    }

    fn draw(self, rng: &mut Rng) -> u32 {
        match self {
            Values::All(value) => value,
            Values::UpTo(most) => rng.within(0..=u64::from(most)) as u32,
            Values::OneByte => 0xFF << (8 * rng.below(4)),
        }
    }
}

fn draw_defaults(most: u32, rng: &mut Rng) -> Defaults {
    let [duration, size] = [Values::durations(rng), Values::sizes(most, rng)];
    Defaults { duration: duration.draw(rng), size: size.draw(rng), flags: rng.u32() }
}

/// Runs of these lengths, and what their durations and sizes come to.
fn draw_chunk(counts: &[u64], most: u32, trex: &Defaults, rng: &mut Rng) -> (Chunk, [u128; 2]) {
    let tfhd = draw_defaults(most, rng);
    let own: u32 = [0x8, 0x10, 0x20].into_iter().filter(|_| rng.chance(50)).sum();
    let default_duration = if own & 0x8 != 0 { tfhd.duration } else { trex.duration };
    let default_size = if own & 0x10 != 0 { tfhd.size } else { trex.size };
    let mut sums = [0; 2];
    let mut runs = Vec::new();
    for (nth, count) in counts.iter().enumerate() {
        let mut flags = (rng.below(16) as u32) << 8;
        flags |= u32::from(nth == 0 || rng.chance(50));
        flags |= if flags & 0x400 == 0 { rng.pick(&[0, 0x4]) } else { 0 };
        let [durations, sizes] = [Values::durations(rng), Values::sizes(most, rng)];
        let mut samples = Vec::new();
        for _ in 0..*count {
            let [duration, size] = [durations.draw(rng), sizes.draw(rng)];
            samples.push(Sample { duration, size, flags: rng.u32(), composition: rng.u32() });
            sums[0] += u128::from(if flags & 0x100 != 0 { duration } else { default_duration });
            sums[1] += u128::from(if flags & 0x200 != 0 { size } else { default_size });
        }
        samples.truncate(if flags & SAMPLE_FIELDS != 0 { samples.len() } else { 0 });
        runs.push(Run {
            version: rng.below(2) as u8,
            flags,
            count: *count as u32,
            first_sample_flags: rng.u32(),
            samples,
            offset_error: 0,
        });
    }
    (Chunk { start: 0, wide_tfdt: true, tfhd_flags: 0x02_0000 | own, tfhd, runs }, sums)
}

fn draw_count(rng: &mut Rng) -> u64 {
    match rng.chance(60) {
        true => rng.pick(&COUNTS),
        false => rng.within(1..=MOST_SAMPLES),
    }
}

fn draw(rng: &mut Rng) -> Case {
    let mut lengths = || (0..rng.pick(&[1, 1, 1, 2])).map(|_| draw_count(rng)).collect();
    let mut counts: Vec<Vec<u64>> = vec![lengths(), lengths()];
    counts.truncate(1 + rng.index(2));
    let most = MOST_SIZE.min(MOST_BYTES / counts.iter().flatten().sum::<u64>()) as u32;
    let mut track = Track::example(0);
    track.trex = draw_defaults(most, rng);
    let mut sums = Vec::new();
    let mut syncs = Vec::new();
    for (nth, counts) in counts.iter().enumerate() {
        let (mut chunk, sum) = draw_chunk(counts, most, &track.trex, rng);
        let is_sync = nth == 0 || rng.chance(50);
        make_sync(&mut chunk, &track.trex, is_sync, rng);
        track.chunks.push(chunk);
        sums.push(sum);
        syncs.push(is_sync);
    }

    // One case of ten has a fault; a start is one only behind another chunk.
    let has_fault = rng.chance(10);
    let is_off = has_fault && sums.len() == 2 && rng.chance(50);
    let spoilt = (has_fault && !is_off).then(|| rng.index(sums.len()));
    let mut broken = sums.iter().enumerate().flat_map(|(nth, [duration, _])| {
        [(is_off && nth == 1, 19), (*duration == 0, 20), (spoilt == Some(nth), 22)]
    });
    let number = broken.find(|(is_broken, _)| *is_broken).map_or(0, |(_, number)| number);

    let latest = LAST_TICK - narrow(sums.iter().map(|[duration, _]| duration).sum());
    let [near, any] = [rng.below(1 << 33), rng.within(0..=latest)];
    let mut tick = u128::from(rng.pick(&[0, near, any, latest]));
    let mut boundaries = Vec::new();
    for (nth, chunk) in track.chunks.iter_mut().enumerate() {
        if syncs[nth] {
            boundaries.push(narrow(tick));
        }
        chunk.start = narrow(tick) ^ u64::from(is_off && nth == 1);
        chunk.wide_tfdt = chunk.start >> 32 != 0 || rng.chance(50);
        tick += sums[nth][0];
    }
    boundaries.push(narrow(tick));

    let mut boxes = track.boxes(&mut Fill::Zeros);
    for (nth, [_, size]) in sums.iter().enumerate() {
        let len = narrow(*size) ^ u64::from(spoilt == Some(nth));
        node::at(&mut boxes, &[(*b"mdat", nth)]).content = Content::Zeros(len as usize);
    }
    Case { bytes: node::bytes(&boxes), number, boundaries }
}

fn narrow(sum: u128) -> u64 {
    u64::try_from(sum).expect("a sum of few numbers")
}

#[cfg(test)]
mod tests {
    use super::*;

    #[test]
    fn a_short_run() {
        assert_eq!(run(Judge::archive().unwrap_or(Judge::REFERENCE), 2, 0, 200), Ok(()));
    }
}
