//! The archive through the wrapper, on the smallest slices there are and on one too long.
#![cfg(linked)]

use flangemint::{check_index, check_set, check_track, Refusal, Verdict};

#[test]
fn empty_slices() {
    assert_eq!(check_index(&[], &mut []), Verdict::default());
    assert_eq!(check_track(&[], &mut []).refusal(), Some(Refusal::TopLevelOrder));
    assert_eq!(
        check_set(&[], &mut []).to_string().split(':').next(),
        Some("refused 24 track 0 at 0")
    );
}

#[test]
fn one_box() {
    let free = *b"\0\0\0\x08free";
    let mut table = [7; 5];
    let verdict = check_index(&free, &mut table);
    assert_eq!(verdict.to_string(), "accepted count 1 timescale 0");
    assert_eq!(table, [0, 8, 0x6672_6565, 0, 7]);

    let mut table = [7; 3];
    assert_eq!(check_index(&free, &mut table).refusal(), Some(Refusal::TableTooShort));
    assert_eq!(table, [7; 3]);
    assert_eq!(check_index(&free, &mut []).refusal(), Some(Refusal::TableTooShort));
}

/// Zeros that nobody reads take no memory.
#[test]
fn one_byte_too_many() {
    let long = vec![0; (1 << 30) + 1];
    for check in [check_index, check_track, check_set] {
        let mut table = [7; 3];
        let verdict = check(&long, &mut table);
        assert_eq!(verdict, Verdict { number: 1, ..Verdict::default() });
        assert_eq!(verdict.refusal(), Some(Refusal::TooLong));
        assert_eq!(table, [7; 3]);
    }
}
