//! No bytes make a check panic, overflow checks being on in tests, and a
//! refused call leaves the table alone.

use crate::judge::judge;
use maker::bundle::bundle;
use maker::cases::Job;
use maker::examples::track_t;
use maker::node;
use maker::rng::Rng;
use reference::Verdict;

fn t() -> Vec<u8> {
    node::bytes(&track_t())
}

/// All three jobs; gives the numbers.
fn all_jobs(bytes: &[u8]) -> [u64; 3] {
    Job::ALL.map(|job| {
        let mut table = [7; 200];
        let verdict = judge(job, bytes, &mut table);
        let Verdict { number, track, place, count, timescale } = verdict;
        assert!(number <= 28 && place <= bytes.len() as u64);
        if number == 0 {
            assert_eq!((track, place), (0, 0));
        } else {
            assert_eq!((count, timescale), (0, 0));
            assert_eq!(table, [7; 200]);
        }
        number
    })
}

#[test]
fn every_start_of_t() {
    let one_chunk = node::total_size(&track_t()[..4]);
    let t = t();
    for len in 0..t.len() {
        let [index, track, set] = all_jobs(&t[..len]);
        assert!([0, 2, 4].contains(&index), "{index} at {len}");
        assert!([2, 4, 6].contains(&track) || len == one_chunk, "{track} at {len}");
        assert_eq!(set, 24);
    }
}

#[test]
fn every_byte_of_t() {
    for good in [t(), bundle(&[t(), t()])] {
        for at in 0..good.len() {
            for value in [0, 1, 2, 7, 8, 0x7F, 0x80, 0xFF] {
                let mut bytes = good.clone();
                bytes[at] = value;
                all_jobs(&bytes);
            }
        }
    }
}

#[test]
fn random_bytes() {
    let mut rng = Rng::new(5);
    for _ in 0..20_000 {
        let len = rng.index(60);
        let mut bytes = rng.bytes(len);
        // Sizes that lead somewhere.
        bytes.iter_mut().take(3).for_each(|byte| *byte = 0);
        all_jobs(&bytes);
    }
}
