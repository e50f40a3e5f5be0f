//! How a case goes to a program on its standard input, and the line that it
//! answers on its standard output.
//!
//! A case: the job in 1 byte (0 index, 1 track, 2 set), the table's length in
//! numbers in 4 bytes, the length of the slice in 4 bytes, the slice. A line:
//! the job, the verdict's five numbers, and the sum of the whole table after
//! the call.
//!
//! A crowd of empty boxes `free` is not sent: job 5 has what stands before it,
//! and how many they are in place of the table's length. It has no line; the
//! case behind it, or another crowd, has what stands behind.

use crate::judge::Judge;
use maker::cases::{Case, Job};
use reference::{Verdict, MAX_BOXES};

/// The longest input of the program `intake`.
pub const INPUT_LIMIT: usize = 65_536;
/// The longest slice and the longest table that a program must take.
pub const MAX_BYTES: usize = INPUT_LIMIT + 8 * MAX_BOXES;
pub const MAX_ROOM: usize = 4 * MAX_BOXES;

/// The bytes before a crowd.
const BEFORE: u8 = 5;
const EMPTY: &[u8; 8] = b"\0\0\0\x08free";
/// So many boxes are a crowd.
const CROWD: usize = 100;
/// What a case is longer by than its slice.
const HEAD: usize = 9;

/// The case, with a table of this length.
pub fn put(case: &Case, room: usize, out: &mut Vec<u8>) {
    put_bytes(case.job as u8, room, &case.bytes, out);
}

/// The bytes of a case of any job.
pub fn put_bytes(job: u8, room: usize, bytes: &[u8], out: &mut Vec<u8>) {
    let mut rest = bytes;
    while let Some((before, boxes, behind)) = parted(rest) {
        put_part(BEFORE, boxes, before, out);
        rest = behind;
    }
    put_part(job, room, rest, out);
}

fn put_part(job: u8, number: usize, bytes: &[u8], out: &mut Vec<u8>) {
    out.push(job);
    for number in [number, bytes.len()] {
        out.extend(u32::try_from(number).expect("a short case").to_be_bytes());
    }
    out.extend(bytes);
}

/// How many bytes are sent for a case of this slice.
pub fn sent(bytes: &[u8]) -> usize {
    let mut rest = bytes;
    let mut sent = HEAD;
    while let Some((before, _, behind)) = parted(rest) {
        sent += HEAD + before.len();
        rest = behind;
    }
    sent + rest.len()
}

/// What stands before the first crowd, how many boxes that is, and what stands behind.
fn parted(bytes: &[u8]) -> Option<(&[u8], usize, &[u8])> {
    let crowd = EMPTY.repeat(CROWD);
    let at = bytes.windows(crowd.len()).position(|window| window == crowd)?;
    let (before, rest) = bytes.split_at(at);
    let boxes = rest.chunks(EMPTY.len()).take_while(|chunk| chunk == EMPTY).count();
    Some((before, boxes, &rest[boxes * EMPTY.len()..]))
}

/// The next case and its table's length, where the bytes begin with one of those jobs.
pub fn take(bytes: &mut &[u8]) -> Option<(Case, usize)> {
    let (mut job, mut room, mut rest) = take_part(bytes)?;
    let mut slice = Vec::new();
    while job == BEFORE {
        slice.extend_from_slice(rest);
        slice.extend(EMPTY.repeat(room));
        (job, room, rest) = take_part(bytes)?;
    }
    slice.extend_from_slice(rest);
    let job = *Job::ALL.get(usize::from(job))?;
    Some((Case { job, bytes: slice, expected: None }, room))
}

/// The job, its number and its bytes, at the start of what was sent.
fn take_part<'a>(bytes: &mut &'a [u8]) -> Option<(u8, usize, &'a [u8])> {
    let (&job, rest) = bytes.split_first()?;
    let (&number, rest) = rest.split_first_chunk()?;
    let (&length, rest) = rest.split_first_chunk()?;
    let [number, length] = [number, length].map(|number| u32::from_be_bytes(number) as usize);
    let (part, rest) = rest.split_at_checked(length)?;
    *bytes = rest;
    Some((job, number, part))
}

/// The reference's verdict, and the line of a program that agrees.
pub fn answer(case: &Case, room: usize) -> (Verdict, String) {
    let mut table = prefilled(room);
    let verdict = Judge::REFERENCE.judge(case.job, &case.bytes, &mut table);
    let Verdict { number, track, place, count, timescale } = verdict;
    let (job, sum) = (case.job as u8, sum(&table));
    (verdict, format!("{job} {number} {track} {place} {count} {timescale} {sum}"))
}

/// The table before the call.
fn prefilled(room: usize) -> Vec<u64> {
    (0..room as u64).map(|i| i * 7 + 1).collect()
}

/// Depends on every number and on its position.
fn sum(table: &[u64]) -> u64 {
    const MODULUS: u64 = 1_000_000_007;
    table.iter().fold(0, |sum, number| (sum * 31 + number % MODULUS) % MODULUS)
}

#[cfg(test)]
mod tests {
    use super::*;

    #[test]
    fn sums() {
        assert_eq!(sum(&[]), 0);
        assert_eq!(sum(&prefilled(2)), 39);
        assert_eq!(sum(&[8, 1]), 249);
        // 2^63 - 1 is 291,172,003 modulo 10^9 + 7.
        assert_eq!(sum(&[(1 << 63) - 1]), 291_172_003);
    }

    #[test]
    fn a_case_and_its_line() {
        let case = Case { job: Job::Track, bytes: vec![0; 7], expected: None };
        let mut out = Vec::new();
        put(&case, 2, &mut out);
        assert_eq!(out, [1, 0, 0, 0, 2, 0, 0, 0, 7, 0, 0, 0, 0, 0, 0, 0]);
        let (taken, room) = take(&mut &out[..]).unwrap();
        assert_eq!((taken.job, taken.bytes, room), (Job::Track, vec![0; 7], 2));
        assert!(take(&mut &out[..15]).is_none());
        let (verdict, line) = answer(&case, 2);
        assert_eq!(verdict.number, 2);
        assert_eq!(line, "1 2 0 0 0 0 39");
    }

    /// A crowd and one box less than one, with something around them and by themselves, once and twice.
    #[test]
    fn crowds() {
        for boxes in [CROWD - 1, CROWD, 5000] {
            for (before, behind) in [
                (&b""[..], &b""[..]),
                (b"\0\0\0\x08fre", b"\0\0\0\x08fred"),
                (b"-", &[b"-", &EMPTY.repeat(boxes)[..], b"-"].concat()),
            ] {
                let bytes = [before, &EMPTY.repeat(boxes), behind].concat();
                let mut out = Vec::new();
                put_bytes(2, 3, &bytes, &mut out);
                assert_eq!(out.len(), sent(&bytes));
                assert_eq!(out[0], if boxes < CROWD { 2 } else { BEFORE });
                let mut rest = &out[..];
                let (case, room) = take(&mut rest).unwrap();
                assert_eq!((case.job, case.bytes, room), (Job::Set, bytes, 3));
                assert!(rest.is_empty());
            }
        }
    }
}
