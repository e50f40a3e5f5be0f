//! Rules 15 to 22.

use super::{other_u32, other_u8, resize, some_of};
use crate::draw::{first_with_sample, LAST_TICK};
use crate::layout::{steps_in_chunk, trun};
use crate::node::{self, Node, Step};
use crate::rng::Rng;
use crate::track::{Chunk, Sample, Track, NON_SYNC, SAMPLE_FIELDS};

/// A number and the box that it is expected at.
type Told = Option<(u64, Vec<Step>)>;

/// Damage to what the n-th chunk says, before there are boxes.
pub fn tell(number: u64, track: &mut Track, nth: usize, rng: &mut Rng) -> Told {
    let path = match number {
        16 => flags(&mut track.chunks[nth], nth, rng),
        19 => start(track, nth, rng),
        20 => duration(track, nth, rng),
        21 => non_sync(track, nth, rng),
        22 => offsets(track, nth, rng)?,
        _ => return None,
    };
    Some((number, path))
}

/// Rule 15: bodies of the wrong size, version, or of flags that ask for another size.
pub fn body(boxes: &mut [Node], chunk: &Chunk, nth: usize, rng: &mut Rng) -> u64 {
    let mut paths: Vec<Vec<Step>> = ["moof/mfhd", "moof/traf/tfhd", "moof/traf/tfdt"]
        .map(|path| steps_in_chunk(path, nth))
        .to_vec();
    paths.extend((0..chunk.runs.len()).map(|run| trun(nth, run)));
    let mut place = 0;
    for rank in some_of(paths.len(), rng) {
        let target = node::at(boxes, &paths[rank]);
        match (&target.kind, rng.below(3)) {
            (b"tfhd", 0) => toggle(target, &[0x1, 0x2, 0x8, 0x10, 0x20], rng),
            (b"trun", 0) => toggle_run(target, rng),
            (b"trun", 1) => target.body()[0] = rng.pick(&[2, 3, 128, 255]),
            (_, 1) => {
                let version = &mut target.body()[0];
                *version = other_u8(*version, rng);
            }
            _ => resize(target.body(), rng),
        }
        place = node::place(boxes, &paths[rank]);
    }
    place
}

fn toggle(full_box: &mut Node, flags: &[u32], rng: &mut Rng) {
    let word = full_box.get_u32(0) ^ rng.pick(flags);
    full_box.put_u32(0, word);
}

/// Another count, or other fields: only a run with samples notices all of them.
fn toggle_run(trun: &mut Node, rng: &mut Rng) {
    let count = trun.get_u32(4);
    let has_fields = trun.get_u32(0) & SAMPLE_FIELDS != 0;
    if has_fields && rng.chance(50) {
        let count = other_u32(count, rng);
        trun.put_u32(4, count);
    } else if count > 0 {
        toggle(trun, &[0x1, 0x4, 0x100, 0x200, 0x400, 0x800], rng);
    } else {
        toggle(trun, &[0x1, 0x4], rng);
    }
}

/// Rule 16: flags that are forbidden or missing, in `tfhd` or in some runs.
fn flags(chunk: &mut Chunk, nth: usize, rng: &mut Rng) -> Vec<Step> {
    let mut path = None;
    for run in some_of(chunk.runs.len(), rng) {
        let run_with_both = &mut chunk.runs[run];
        if run_with_both.count <= 64 {
            run_with_both.flags |= 0x404;
            // A run that had no fields of its own has no samples written down.
            run_with_both.samples.resize(run_with_both.count as usize, Sample::default());
            path = Some(trun(nth, run));
        }
    }
    if path.is_none() || rng.chance(50) {
        match rng.below(3) {
            0 => chunk.tfhd_flags |= 0x1,
            1 => chunk.tfhd_flags |= 0x01_0000,
            _ => chunk.tfhd_flags &= !0x02_0000,
        }
        path = Some(steps_in_chunk("moof/traf/tfhd", nth));
    }
    path.expect("something was damaged")
}

/// Rule 17.
pub fn track_id(boxes: &mut [Node], nth: usize, rng: &mut Rng) -> u64 {
    let path = steps_in_chunk("moof/traf/tfhd", nth);
    let tfhd = node::at(boxes, &path);
    let other = other_u32(tfhd.get_u32(4), rng);
    tfhd.put_u32(4, other);
    node::place(boxes, &path)
}

/// Rule 18: no sample at all, or too many. The data box stays as it was: rule 22 comes later.
pub fn sample_count(boxes: &mut [Node], chunk: &Chunk, nth: usize, rng: &mut Rng) -> u64 {
    let runs = &chunk.runs;
    if rng.chance(40) {
        for run in 0..runs.len() {
            without_fields(node::at(boxes, &trun(nth, run)), 0);
        }
    } else {
        let run = rng.index(runs.len());
        let others = runs.iter().map(|run| run.count).sum::<u32>() - runs[run].count;
        let wrapped = 1u32.wrapping_sub(others); // all of them sum to 1 in 32 bits
        let least = 65_537 - others;
        let counts = [least, least, least + 1, 1 << 31, u32::MAX, wrapped];
        let count = rng.pick(if others < 2 { &counts[..5] } else { &counts });
        without_fields(node::at(boxes, &trun(nth, run)), count);
    }
    node::place(boxes, &steps_in_chunk("moof/traf", nth))
}

/// Makes a run one of so many samples that carry nothing of their own.
fn without_fields(trun: &mut Node, count: u32) {
    let word = trun.get_u32(0) & !SAMPLE_FIELDS & !0x4 | 0x1;
    *trun.body() = [word.to_be_bytes(), count.to_be_bytes(), [0; 4]].concat();
}

/// Rule 19: a later chunk that starts elsewhere, whether or not it begins a fragment.
fn start(track: &mut Track, nth: usize, rng: &mut Rng) -> Vec<Step> {
    let right = track.end_before(nth);
    let any = rng.next();
    let near = [right.wrapping_add(1), right.wrapping_sub(1)];
    let mut wrong = rng.pick(&[near[0], near[1], right ^ (1 << 32), right ^ (1 << 31), 0, any]);
    if wrong == right {
        wrong = near[0];
    }
    let chunk = &mut track.chunks[nth];
    (chunk.start, chunk.wide_tfdt) = (wrong, wrong >> 32 != 0 || rng.chance(50));
    if right >> 32 != 0 && rng.chance(30) {
        // The low half alone, where 32 bits don't reach.
        (chunk.start, chunk.wide_tfdt) = (right & 0xFFFF_FFFF, false);
    }
    steps_in_chunk("moof/traf/tfdt", nth)
}

/// Rule 20: a chunk that takes no time, or ends too late.
fn duration(track: &mut Track, nth: usize, rng: &mut Rng) -> Vec<Step> {
    if rng.chance(50) {
        stop_time(&mut track.chunks[nth]);
    } else {
        shift(track, nth, rng);
    }
    trun(nth, 0)
}

fn stop_time(chunk: &mut Chunk) {
    chunk.tfhd_flags |= 0x8;
    chunk.tfhd.duration = 0;
    let samples = chunk.runs.iter_mut().flat_map(|run| &mut run.samples);
    samples.for_each(|sample| sample.duration = 0);
}

/// Moves the track so that the n-th chunk is the first to end too late.
fn shift(track: &mut Track, nth: usize, rng: &mut Rng) {
    let (start, end) = (track.chunks[nth].start, track.end_before(nth + 1));
    let least = LAST_TICK + 1 - end;
    // A first chunk may even start too late, and its end wrap.
    let most = if nth == 0 { u64::MAX - start } else { LAST_TICK - start };
    let any = rng.within(least..=most);
    let by = rng.pick(&[least, least, most, any]);
    for chunk in &mut track.chunks {
        chunk.start = chunk.start.wrapping_add(by);
        chunk.wide_tfdt = true;
    }
}

/// Rule 21: non-sync at the source that decides. It is broken by the track's first chunk alone; a
/// later one then belongs to the fragment before. What `trex` says is changed for the first chunk
/// only, because it may decide for all.
fn non_sync(track: &mut Track, nth: usize, rng: &mut Rng) -> Vec<Step> {
    let chunk = &mut track.chunks[nth];
    let run = first_with_sample(chunk);
    if run.flags & 0x4 != 0 {
        run.first_sample_flags |= NON_SYNC;
    } else if run.flags & 0x400 != 0 {
        run.samples[0].flags |= NON_SYNC;
    } else if chunk.tfhd_flags & 0x20 == 0 && nth == 0 {
        track.trex.flags |= NON_SYNC;
    } else {
        chunk.tfhd_flags |= 0x20;
        chunk.tfhd.flags = rng.u32() | NON_SYNC;
    }
    trun(nth, 0)
}

/// Rule 22: offsets wrong or missing, in one of four cases left to the data box.
fn offsets(track: &mut Track, nth: usize, rng: &mut Rng) -> Option<Vec<Step>> {
    match rng.below(4) {
        0 => None,
        1 => {
            track.chunks[nth].runs[0].flags &= !0x1;
            Some(trun(nth, 0))
        }
        2 => Some(beyond_32_bits(track, nth)),
        _ => {
            let runs = &mut track.chunks[nth].runs;
            let wrong = some_of(runs.len(), rng);
            for run in &wrong {
                runs[*run].flags |= 0x1;
                runs[*run].offset_error = other_u32(0, rng).cast_signed();
            }
            wrong.last().map(|run| trun(nth, *run))
        }
    }
}

/// Sizes so large that a later offset is right in its low 32 bits only; if no
/// run comes later, the data box is too small for them.
fn beyond_32_bits(track: &mut Track, nth: usize) -> Vec<Step> {
    let chunk = &mut track.chunks[nth];
    let large = chunk.runs.iter().position(|run| run.count > 0).expect("a sample");
    chunk.tfhd_flags |= 0x10;
    chunk.tfhd.size = u32::MAX;
    for run in &mut chunk.runs {
        run.flags &= !0x200;
    }
    let later = chunk.runs.len() - 1;
    if later == large {
        return vec![(*b"mdat", nth)];
    }
    chunk.runs[later].flags |= 0x1;
    let wrong = (large + 1..=later).find(|run| chunk.runs[*run].flags & 0x1 != 0);
    trun(nth, wrong.expect("the last one carries an offset"))
}

/// Rule 22: a data box of another size.
pub fn data_box(boxes: &mut [Node], nth: usize, rng: &mut Rng) -> u64 {
    let mdat = [(*b"mdat", nth)];
    resize(node::at(boxes, &mdat).body(), rng);
    node::place(boxes, &mdat)
}
