//! Drawn cases: the way each was made decides its answer.

use crate::judge::{check_case, judge};
use maker::cases::Job;
use maker::mix::draw;
use maker::rng::Rng;

const CASES: u64 = 2500;

/// Every number but 1 is reached, and with the number and place that the damage was aimed at.
#[test]
fn answers_are_as_made() {
    let mut reached = [[0u64; 29]; 3];
    for job in Job::ALL {
        for number in 0..CASES {
            let mut rng = Rng::of_case(1, number * 3 + job as u64);
            let case = draw(job, &mut rng);
            let name = format!("{} {number}", job.name());
            let mut ample = vec![0; 4 * reference::MAX_BOXES];
            let verdict = judge(job, &case.bytes, &mut ample);
            reached[job as usize][verdict.number as usize] += 1;
            if case.expected.is_some() {
                check_case(&name, &case, 700 * 4);
            }
        }
    }
    for (job, numbers) in [(Job::Index, 2..=5), (Job::Track, 2..=22), (Job::Set, 2..=28)] {
        for number in numbers.filter(|number| *number != 23).chain([0]) {
            let times = reached[job as usize][number];
            // Rule 5 is drawn seldom.
            let least = if number == 5 { 1 } else { 5 };
            assert!(times >= least, "{} {number} was reached {times} times", job.name());
        }
    }
}
