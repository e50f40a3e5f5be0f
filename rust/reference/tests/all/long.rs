//! Long tracks: many chunks, many fragments, and runs of many samples.

use crate::judge::check_case;
use maker::bundle::bundle;
use maker::cases::{Answer, Case, Job};
use maker::node;
use maker::rng::Rng;
use maker::track::{Fill, Run, Sample, Track, NON_SYNC};

/// No more fragments fit into rule 5's boxes beside the header.
const MAX_FRAGMENTS: u64 = (reference::MAX_BOXES as u64 - 20) / 7;

/// Around every length at which the boundaries or the sums are kept another way, and the longest.
const LENGTHS: [u64; 12] = [1, 2, 7, 8, 9, 30, 31, 32, 255, 256, 257, MAX_FRAGMENTS];

fn bytes(track: &Track) -> Vec<u8> {
    node::bytes(&track.boxes(&mut Fill::Zeros))
}

fn check(name: &str, job: Job, bytes: Vec<u8>, expected: Answer) {
    let room = expected.table.len();
    let case = Case { job, bytes, expected: Some(expected) };
    for room in [room, room + 1, room.saturating_sub(1)] {
        check_case(name, &case, room);
    }
}

#[test]
fn many_fragments() {
    for fragments in LENGTHS {
        let track = Track::example(fragments);
        let expected = Answer::accepted(track.timescale, track.boundaries());
        let name = format!("{fragments} fragments");
        check(&name, Job::Track, bytes(&track), expected.clone());
        check(&name, Job::Set, bundle(&[bytes(&track), bytes(&track)]), expected);
    }
}

/// Rule 28, wherever the boundary stands: each of `LENGTHS`, the last one too.
#[test]
fn many_boundaries() {
    let right = Track::example(MAX_FRAGMENTS);
    for boundary in LENGTHS {
        let mut track = right.clone();
        track.chunks[boundary as usize - 1].runs[0].samples[1].duration += 1;
        if let Some(after) = track.chunks.get_mut(boundary as usize) {
            after.start += 1;
            after.runs[0].samples[0].duration -= 1;
        }
        let boxes = track.boxes(&mut Fill::Zeros);
        let moof = boundary.min(MAX_FRAGMENTS - 1) as usize;
        let place = node::place(&boxes, &[(*b"moof", moof)]);
        let set = bundle(&[bytes(&right), bytes(&right), node::bytes(&boxes)]);
        let expected = Answer::refused(28, place).of_track(2);
        check(&format!("boundary {boundary}"), Job::Set, set, expected);
    }
}

/// So many chunks, and as many of them in each fragment as the second number says.
fn grouped(chunks: u64, together: usize) -> Track {
    let mut track = Track::example(chunks);
    for (nth, chunk) in track.chunks.iter_mut().enumerate() {
        let run = &mut chunk.runs[0];
        run.flags |= 0x4;
        run.first_sample_flags = if nth.is_multiple_of(together) { 0 } else { NON_SYNC };
    }
    track
}

/// Fragments of any number of chunks, by themselves and beside others with the same boundaries.
#[test]
fn many_chunks() {
    for chunks in LENGTHS {
        for together in LENGTHS {
            let track = grouped(chunks, together as usize);
            let starts = (0..chunks).step_by(together as usize).map(|nth| nth * 180_000);
            let boundaries: Vec<u64> = starts.chain([chunks * 180_000]).collect();
            assert_eq!(track.boundaries(), boundaries);
            let expected = Answer::accepted(track.timescale, boundaries);
            let name = format!("{chunks} chunks, {together} together");
            check(&name, Job::Track, bytes(&track), expected.clone());
            check(&name, Job::Set, bundle(&[bytes(&track), bytes(&track)]), expected);
        }
    }
}

/// Rule 28 is placed at the fragment's first `moof`, and at the last one's for the last boundary.
#[test]
fn places_among_chunks() {
    let right = grouped(MAX_FRAGMENTS, 40);
    let firsts = right.fragments();
    for boundary in 0..=firsts.len() {
        let mut track = right.clone();
        let chunk = firsts.get(boundary).copied().unwrap_or(track.chunks.len());
        match chunk.checked_sub(1) {
            Some(before) => track.chunks[before].runs[0].samples[1].duration += 1,
            None => track.chunks[0].runs[0].samples[0].duration -= 1,
        }
        if let Some(after) = track.chunks.get_mut(chunk) {
            after.start += 1;
            if chunk > 0 {
                after.runs[0].samples[0].duration -= 1;
            }
        }
        let boxes = track.boxes(&mut Fill::Zeros);
        let moof = firsts[boundary.min(firsts.len() - 1)];
        let place = node::place(&boxes, &[(*b"moof", moof)]);
        let set = bundle(&[bytes(&right), node::bytes(&boxes)]);
        let expected = Answer::refused(28, place).of_track(1);
        check(&format!("boundary {boundary}"), Job::Set, set, expected);
    }
}

/// All rows that a run may have, of any durations and of sizes that use every byte.
#[test]
fn many_samples() {
    let mut rng = Rng::new(3);
    for fields in (0..16).map(|fields| fields << 8) {
        for count in LENGTHS.into_iter().chain([2000]) {
            let mut track = Track::example(1);
            (track.trex.duration, track.trex.size) = (5, 3);
            let last = rng.below(count);
            let sample = |nth: u64| Sample {
                duration: rng.u32(),
                size: if nth == last { 0x0101_0101 } else { rng.below(300) as u32 },
                flags: if nth == 0 { 0 } else { rng.u32() },
                composition: rng.u32(),
            };
            let samples: Vec<Sample> = (0..count).map(sample).collect();
            let run = &mut track.chunks[0].runs[0];
            let flags = 0x1 | fields;
            *run = Run { flags, count: count as u32, samples, ..run.clone() };
            if fields == 0 {
                run.samples.clear();
            }
            let expected = Answer::accepted(track.timescale, track.boundaries());
            check(&format!("{count} samples, {flags:x}"), Job::Track, bytes(&track), expected);
        }
    }
}
