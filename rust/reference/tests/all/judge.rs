//! Runs the reference on a case and compares verdict and whole table.

use maker::cases::{Answer, Case, Job};
use reference::Verdict;

pub fn judge(job: Job, bytes: &[u8], table: &mut [u64]) -> Verdict {
    match job {
        Job::Index => reference::index(bytes, table),
        Job::Track => reference::track(bytes, table),
        Job::Set => reference::set(bytes, table),
    }
}

fn numbers(answer: &Answer) -> Verdict {
    let Answer { number, track, place, count, timescale, .. } = *answer;
    Verdict { number, track, place, count, timescale }
}

/// The whole table, written part and rest, must come out as expected.
pub fn check_case(name: &str, case: &Case, room: usize) {
    let ample = case.expected.as_ref().unwrap();
    let no_room = Answer::refused(23, 0);
    let expected = if room < ample.table.len() { &no_room } else { ample };

    let mut table: Vec<u64> = (0..room as u64).map(|i| !i).collect();
    let mut expected_table = table.clone();
    expected_table[..expected.table.len()].copy_from_slice(&expected.table);
    let verdict = judge(case.job, &case.bytes, &mut table);
    assert_eq!(verdict, numbers(expected), "{name}, room {room}");
    assert_eq!(table, expected_table, "{name}, room {room}");
}
