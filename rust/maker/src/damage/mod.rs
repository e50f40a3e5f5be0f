//! Damage that breaks known rules and leaves the rest as it was, so that the
//! number and the place of the refusal are known.

mod chunk;
mod counts;
pub mod framing;
mod header;
mod order;
pub mod set;

use crate::decorate::dressed;
use crate::draw::{self, Plan};
use crate::node::{self, Node};
use crate::rng::Rng;
use crate::track::Track;

/// The numbers that damage to one track can be aimed at.
pub const TRACK_NUMBERS: std::ops::RangeInclusive<u64> = 2..=22;

/// A damaged track and the place of its refusal.
pub struct Damaged {
    pub boxes: Vec<Node>,
    pub place: u64,
}

/// A track of this plan that is refused with this number. It may break rules
/// of higher numbers too, and any rule of chunks in a later one.
pub fn aimed(number: u64, plan: &Plan, rng: &mut Rng) -> Damaged {
    let numbers = with_later_ones(number, rng);
    // Rule 19 is for later chunks, and all damage to chunks is done to one.
    let first = usize::from(numbers.contains(&19));
    let mut track = draw::track(plan, rng);
    while track.chunks.len() <= first {
        track = draw::track(&Plan::draw(rng), rng);
    }
    // Rule 21 is for the first chunk alone.
    let nth = if number == 21 { 0 } else { first + rng.index(track.chunks.len() - first) };

    // Highest numbers first: what a later rule looks at is still whole when
    // its turn comes, and the lowest number has the last word on the place.
    let mut told = None;
    for number in &numbers {
        told = chunk::tell(*number, &mut track, nth, rng).or(told);
    }
    let mut boxes = dressed(&track, rng);
    let later = nth + 1..track.chunks.len();
    if !later.is_empty() && rng.chance(30) {
        // Chunk by chunk: what a later one breaks is of no matter.
        let later = later.start + rng.index(later.len());
        hurt(rng.pick(&[14, 15, 17, 18]), &mut boxes, &track, later, rng);
    }
    let mut place = None;
    for number in &numbers {
        place = hurt(*number, &mut boxes, &track, nth, rng).or(place);
    }
    if let Some((_, path)) = told.filter(|(told, _)| *told == number) {
        place = Some(node::place(&boxes, &path));
    }
    Damaged { boxes, place: place.expect("some damage was done") }
}

/// The number, after those of up to three more rules that are tried later,
/// from the highest to the lowest.
fn with_later_ones(number: u64, rng: &mut Rng) -> Vec<u64> {
    let later = number.max(5) + 1..=*TRACK_NUMBERS.end();
    let mut numbers = vec![number];
    for _ in 0..rng.pick(&[0, 0, 1, 3]) {
        if !later.is_empty() {
            numbers.push(rng.within(later.clone()));
        }
    }
    if numbers.contains(&16) {
        // Damage to the sample count rewrites runs, and could undo that to flags.
        numbers.retain(|number| *number != 18);
    }
    numbers.sort();
    numbers.dedup();
    numbers.reverse();
    numbers
}

/// Damage to boxes; gives the place, if that is where this number's damage is done.
fn hurt(
    number: u64,
    boxes: &mut Vec<Node>,
    track: &Track,
    nth: usize,
    rng: &mut Rng,
) -> Option<u64> {
    Some(match number {
        2..=4 => framing::tail(number, boxes, rng),
        5 => framing::too_many(boxes, rng),
        6 => order::disorder(boxes, rng),
        7 => counts::header(boxes, rng),
        8 => header::body(boxes, rng),
        9 => header::brands(boxes, rng),
        10..=12 => header::field(number, boxes, rng),
        13 => header::sample_tables(boxes, rng),
        14 => counts::chunk(boxes, nth, rng),
        15 => chunk::body(boxes, &track.chunks[nth], nth, rng),
        17 => chunk::track_id(boxes, nth, rng),
        18 => chunk::sample_count(boxes, &track.chunks[nth], nth, rng),
        22 if track.chunks[nth].has_good_offsets() => chunk::data_box(boxes, nth, rng),
        _ => return None,
    })
}

/// One to three different places in a list of this length, from the last to the first.
fn some_of(len: usize, rng: &mut Rng) -> Vec<usize> {
    let mut chosen: Vec<usize> = (0..rng.pick(&[1, 1, 2, 3])).map(|_| rng.index(len)).collect();
    chosen.sort();
    chosen.dedup();
    chosen.reverse();
    chosen
}

/// Changes a length by a little, or cuts anywhere.
fn resize(body: &mut Vec<u8>, rng: &mut Rng) {
    if body.is_empty() || rng.chance(50) {
        let more = rng.pick(&[1, 4, 8, 12]);
        body.extend(rng.bytes(more));
    } else {
        let cut = 1 + rng.index(body.len());
        let cut = if rng.chance(50) { cut } else { cut.min(4) };
        body.truncate(body.len() - cut);
    }
}

/// Any value but this one, often close to it.
fn other_u8(value: u8, rng: &mut Rng) -> u8 {
    let any = rng.within(1..=255) as u8;
    let step = rng.pick(&[1, 2, 255, any]);
    value.wrapping_add(step)
}

fn other_u32(value: u32, rng: &mut Rng) -> u32 {
    let any = rng.u32().max(1);
    let step = rng.pick(&[1, 2, u32::MAX, 1 << 28, 1 << 29, 1 << 30, 1 << 31, any]);
    value.wrapping_add(step)
}
