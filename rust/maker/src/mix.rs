//! The mix of cases that the checks are tried on: good, damaged with aim, damaged blindly.

use crate::blind;
use crate::bundle::{bundle, record};
use crate::cases::{Answer, Case, Job};
use crate::damage::framing::{crowd, MAX_BOXES};
use crate::damage::set::{bad_bundle, differing, regrouped};
use crate::damage::{aimed, Damaged, TRACK_NUMBERS};
use crate::decorate::{dressed, good};
use crate::draw::{self, Plan};
use crate::layout::steps;
use crate::node::{self, Node};
use crate::rng::Rng;
use crate::soup::soup;
use crate::track::Track;

/// As many boxes as there may be take long to make: the chance of them, in a hundred.
pub const SELDOM: u64 = 1;

/// Draws a case of this job.
pub fn draw(job: Job, rng: &mut Rng) -> Case {
    let (mut bytes, mut expected) = match job {
        Job::Index => index(rng),
        Job::Track => track(rng),
        Job::Set => set(rng),
    };
    if rng.chance(20) {
        blind::damage(&mut bytes, rng);
        expected = None;
    }
    Case { job, bytes, expected }
}

type Drawn = (Vec<u8>, Option<Answer>);

fn refused(number: u64, damaged: &Damaged) -> Answer {
    Answer::refused(number, damaged.place)
}

fn index(rng: &mut Rng) -> Drawn {
    let plan = Plan::draw(rng);
    if rng.chance(40) {
        let number = if rng.chance(SELDOM) { 5 } else { rng.within(2..=4) };
        let damaged = aimed(number, &plan, rng);
        return (node::bytes(&damaged.boxes), Some(refused(number, &damaged)));
    }
    let mut boxes = if rng.chance(50) { soup("", rng) } else { good(&plan, rng) };
    if rng.chance(SELDOM) {
        crowd(&mut boxes, MAX_BOXES, rng);
    }
    (node::bytes(&boxes), Some(Answer::listed(node::rows(&boxes))))
}

pub fn accepted(plan: &Plan) -> Answer {
    Answer::accepted(plan.timescale, plan.boundaries.clone())
}

fn track(rng: &mut Rng) -> Drawn {
    let (boxes, expected) = track_boxes(rng);
    (node::bytes(&boxes), Some(expected))
}

/// A track, good or damaged with aim.
pub fn track_boxes(rng: &mut Rng) -> (Vec<Node>, Answer) {
    let plan = Plan::draw(rng);
    if rng.chance(75) {
        let number = some_number(rng);
        let damaged = aimed(number, &plan, rng);
        let expected = refused(number, &damaged);
        return (damaged.boxes, expected);
    }
    let mut boxes = good(&plan, rng);
    if rng.chance(SELDOM) {
        node::fill_up(&mut boxes, MAX_BOXES);
    }
    (boxes, accepted(&plan))
}

/// Rule 5 is drawn less often than the others.
fn some_number(rng: &mut Rng) -> u64 {
    loop {
        let number = rng.within(TRACK_NUMBERS);
        if number != 5 || rng.chance(10 * SELDOM) {
            return number;
        }
    }
}

fn set(rng: &mut Rng) -> Drawn {
    match rng.below(100) {
        0..=14 => {
            let (bytes, good_records, place) = bad_bundle(rng);
            (bytes, Some(Answer::refused(24, place).of_track(good_records)))
        }
        15..=39 => one_bad_track(rng),
        40..=74 => one_other_track(rng),
        _ => {
            let plan = Plan::draw(rng);
            let tracks = rng.pick(&[1, 2, 3, 16]);
            (bundle(&good_tracks(tracks, &plan, rng)), Some(accepted(&plan)))
        }
    }
}

fn good_tracks(count: usize, plan: &Plan, rng: &mut Rng) -> Vec<Vec<u8>> {
    (0..count).map(|_| node::bytes(&good(plan, rng))).collect()
}

/// How many good tracks stand before the one that matters.
fn tracks_before(least: usize, rng: &mut Rng) -> usize {
    let most = rng.pick(&[1, 1, 3, 13]);
    rng.within(least as u64..=most) as usize
}

/// A track is refused for itself, whatever rules 25 to 28 would say of any track.
fn one_bad_track(rng: &mut Rng) -> Drawn {
    let plan = Plan::draw(rng);
    let number = some_number(rng);
    let before = tracks_before(0, rng);
    let mut tracks = good_tracks(before, &plan, rng);
    if before > 0 && rng.chance(50) {
        let (other, _) = differing(rng.within(25..=28), &plan, rng);
        tracks.push(node::bytes(&good(&other, rng)));
    }
    let damaged = aimed(number, &plan, rng);
    let expected = refused(number, &damaged).of_track(tracks.len());
    tracks.push(node::bytes(&damaged.boxes));
    if rng.chance(30) {
        let number = some_number(rng);
        tracks.push(node::bytes(&aimed(number, &plan, rng).boxes));
    }
    (bundle(&tracks), Some(expected))
}

/// A good track differs from track 0; later ones may differ too.
fn one_other_track(rng: &mut Rng) -> Drawn {
    let plan = Plan::draw(rng);
    let number = rng.within(25..=28);
    let before = tracks_before(1, rng);
    let mut tracks = good_tracks(before, &plan, rng);
    let (other, boundary) = other_track(number, &plan, &mut tracks[0], rng);
    let boxes = dressed(&other, rng);
    let firsts = other.fragments();
    let place = match number {
        25 => node::place(&boxes, &steps("moov/trak/mdia/hdlr")),
        26 => node::place(&boxes, &steps("moov/trak/mdia/mdhd")),
        27 => node::total_size(&boxes) as u64,
        _ => node::place(&boxes, &[(*b"moof", firsts[boundary.min(firsts.len() - 1)])]),
    };
    tracks.push(node::bytes(&boxes));
    let mut bytes = bundle(&tracks);
    if rng.chance(40) {
        let (another, _) = differing(rng.within(25..=28), &plan, rng);
        bytes.extend(record(&node::bytes(&good(&another, rng))));
    }
    (bytes, Some(Answer::refused(number, place).of_track(before)))
}

/// A good track that is first refused beside this plan with number 25 to 28, and rule 28's
/// boundary. Sometimes track 0 gets the same chunks, grouped as the plan says.
fn other_track(number: u64, plan: &Plan, track_0: &mut Vec<u8>, rng: &mut Rng) -> (Track, usize) {
    if number >= 27 && rng.chance(40) {
        let track = draw::track(plan, rng);
        if let Some(regrouped) = regrouped(number, &track, rng) {
            *track_0 = node::bytes(&dressed(&track, rng));
            return regrouped;
        }
    }
    let (other, boundary) = differing(number, plan, rng);
    (draw::track(&other, rng), boundary)
}

#[cfg(test)]
mod tests {
    use super::*;

    /// A case is known by its seed and number: made twice, it is the same.
    #[test]
    fn cases_can_be_made_again() {
        for number in 0..50 {
            for job in Job::ALL {
                let again = || draw(job, &mut Rng::of_case(9, number)).bytes;
                assert_eq!(again(), again());
            }
        }
    }

    /// Drawn numbers of samples reach the most that there may be.
    #[test]
    fn chunks_can_be_full() {
        let mut rng = Rng::new(1);
        let mut most = 0;
        for _ in 0..100 {
            let plan = Plan::draw(&mut rng);
            let chunks = draw::track(&plan, &mut rng).chunks;
            let counts = chunks.iter().map(|c| c.runs.iter().map(|run| run.count).sum::<u32>());
            most = most.max(counts.max().unwrap());
        }
        assert_eq!(most, 65_536);
    }
}
