//! Rules 24 to 28.

use crate::bundle::{bundle, record, MARK};
use crate::decorate::good;
use crate::draw::{make_sync, Plan, LAST_TICK, PAIRS};
use crate::node;
use crate::rng::Rng;
use crate::track::Track;

/// Rule 24: a bundle that is no run of 1 to 16 records; gives the count of
/// good records and the place too.
pub fn bad_bundle(rng: &mut Rng) -> (Vec<u8>, usize, u64) {
    let good_records = rng.pick(&[0, 1, 2, 5, 15, 16, 16]);
    let records: Vec<Vec<u8>> = (0..good_records).map(|_| any_track(rng)).collect();
    let mut bytes = bundle(&records);
    let place = bytes.len() as u64;
    bytes.extend(bad_record(good_records, rng));
    (bytes, good_records, place)
}

/// Framed is enough: rule 24 comes before any rule of a track.
fn any_track(rng: &mut Rng) -> Vec<u8> {
    if rng.chance(70) {
        let len = rng.index(40);
        return rng.bytes(len);
    }
    let plan = Plan::draw(rng);
    node::bytes(&good(&plan, rng))
}

fn bad_record(good_records: usize, rng: &mut Rng) -> Vec<u8> {
    if good_records == 0 && rng.chance(20) {
        return Vec::new();
    }
    let track = any_track(rng);
    let mut bytes = record(&track);
    if good_records == 16 && rng.chance(50) {
        return bytes;
    }
    match rng.below(3) {
        0 => bytes.truncate(1 + rng.index(5)),
        1 => {
            let wrong = [[0x57, 0x53], [0x53, 0x53], [0x57, 0x57], [0, 0], [0x53, 0x56]];
            bytes[..2].copy_from_slice(&rng.pick(&wrong));
        }
        _ => {
            let beyond = rng.pick(&[1, 2, 1 << 30, 1 << 31, u32::MAX - track.len() as u32]);
            let length = track.len() as u32 + beyond;
            bytes = [&MARK[..], &length.to_be_bytes(), &track].concat();
        }
    }
    bytes
}

/// The plan of a track that is first refused beside this plan with number 25 to
/// 28, and rule 28's boundary.
pub fn differing(number: u64, plan: &Plan, rng: &mut Rng) -> (Plan, usize) {
    let mut other = plan.clone();
    let mut boundary = 0;
    // A rule of a higher number may be broken as well.
    if number == 25 {
        while other.handler == plan.handler {
            (other.handler, other.media_header) = rng.pick(&PAIRS);
        }
    }
    if number == 26 || number < 26 && rng.chance(30) {
        other.timescale = if plan.timescale == 1 { 2 } else { plan.timescale - 1 };
    }
    if number == 27 || number < 27 && rng.chance(30) {
        more_or_fewer(&mut other.boundaries, rng);
    } else if number == 28 || rng.chance(30) {
        boundary = move_one(&mut other.boundaries, rng);
    }
    (other, boundary)
}

/// The same chunks as those of a track, one or two of them now with another first sample, so that
/// they are cut into other fragments: refused beside it with number 27 or 28. Gives the boundary
/// of 28 too; nothing where the track has too few chunks.
pub fn regrouped(number: u64, track: &Track, rng: &mut Rng) -> Option<(Track, usize)> {
    let firsts = track.fragments();
    let begins = |nth: usize| firsts.contains(&nth);
    let later = 1..track.chunks.len();
    // One that begins a fragment, and a neighbour that continues one; for 27 any one will do.
    let swaps: Vec<(usize, usize)> = match number {
        27 => later.map(|nth| (nth, nth)).collect(),
        _ => later
            .clone()
            .flat_map(|nth| [(nth, nth - 1), (nth, nth + 1)])
            .filter(|(nth, other)| later.contains(other) && begins(*nth) && !begins(*other))
            .collect(),
    };
    if swaps.is_empty() {
        return None;
    }
    let (one, other) = rng.pick(&swaps);
    let mut regrouped = track.clone();
    make_sync(&mut regrouped.chunks[one], &track.trex, !begins(one), rng);
    if other != one {
        make_sync(&mut regrouped.chunks[other], &track.trex, true, rng);
    }
    let boundary = firsts.iter().position(|first| *first == one).unwrap_or(0);
    Some((regrouped, boundary))
}

fn more_or_fewer(boundaries: &mut Vec<u64>, rng: &mut Rng) {
    let last = boundaries[boundaries.len() - 1];
    if boundaries.len() > 2 && (last == LAST_TICK || rng.chance(50)) {
        boundaries.pop();
    } else if last < LAST_TICK {
        boundaries.push(last + 1 + rng.below((LAST_TICK - last).min(9000)));
    } else {
        // One fragment up to the last tick: now two of them.
        let start = boundaries[0].min(last - 2);
        *boundaries = vec![start, last - 1, last];
    }
}

/// Moves the lowest boundary that differs, and perhaps later ones with it.
fn move_one(boundaries: &mut [u64], rng: &mut Rng) -> usize {
    let nth = rng.index(boundaries.len());
    let before = if nth == 0 { None } else { Some(boundaries[nth - 1]) };
    let after = boundaries.get(nth + 1).copied();
    let at = boundaries[nth];
    let down = at.checked_sub(1).filter(|down| before.is_none_or(|before| *down > before));
    let up = Some(at + 1).filter(|up| *up <= LAST_TICK && after.is_none_or(|after| *up < after));
    if boundaries[boundaries.len() - 1] < LAST_TICK && rng.chance(30) {
        boundaries[nth..].iter_mut().for_each(|tick| *tick += 1);
        return nth;
    }
    match (down, up) {
        (Some(down), Some(up)) => boundaries[nth] = rng.pick(&[down, up]),
        (Some(tick), None) | (None, Some(tick)) => boundaries[nth] = tick,
        // No room between its neighbours: the first can always move.
        (None, None) => return move_first(boundaries),
    }
    nth
}

fn move_first(boundaries: &mut [u64]) -> usize {
    if boundaries[0] > 0 {
        boundaries[0] -= 1;
        return 0;
    }
    // From 0 in single ticks: everything one tick later.
    boundaries.iter_mut().for_each(|tick| *tick += 1);
    0
}
