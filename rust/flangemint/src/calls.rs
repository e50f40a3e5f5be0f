//! What the archive exports, made safe to call.

use crate::{Answer, Verdict, MAX_GATHERED};

/// Bytes and their length, the lent table and its length in numbers, and the
/// place for the verdict's five numbers.
type Check = unsafe extern "C" fn(*const u8, usize, *mut u64, usize, *mut u64);

unsafe extern "C" {
    fn flangemint_index(
        data: *const u8,
        len: usize,
        table: *mut u64,
        room: usize,
        verdict: *mut u64,
    );
    fn flangemint_track(
        data: *const u8,
        len: usize,
        table: *mut u64,
        room: usize,
        verdict: *mut u64,
    );
    fn flangemint_set(data: *const u8, len: usize, table: *mut u64, room: usize, verdict: *mut u64);
    fn flangemint_pieces_begin(numbers: *mut u64);
    fn flangemint_pieces_take(
        numbers: *mut u64,
        head: *mut u8,
        kept: *mut u8,
        data: *const u8,
        len: usize,
    );
    fn flangemint_pieces_answer(
        numbers: *const u64,
        head: *const u8,
        kept: *const u8,
        answer: *mut u64,
    );
}

/// The arrays that hold a track in pieces. They may hold anything: then the answer has no meaning,
/// but nothing faults.
pub type Numbers = [u64; 24];
pub type Head = [u8; 16];
pub type Kept = [u8; MAX_GATHERED];

/// Lists the boxes of a slice; on acceptance the table begins with four
/// numbers a box: offset, whole size, type, depth.
pub fn check_index(data: &[u8], table: &mut [u64]) -> Verdict {
    call(flangemint_index, data, table)
}

/// Checks one track; on acceptance the table begins with its boundaries, one
/// more than it has fragments: the start of each and the end of the last. A
/// chunk, a `moof` and its `mdat`, begins a fragment where its first sample is
/// sync, else it continues one.
pub fn check_track(data: &[u8], table: &mut [u64]) -> Verdict {
    call(flangemint_track, data, table)
}

/// Checks a bundle of tracks; on acceptance the table begins with the
/// boundaries that all of them share.
///
/// ```no_run
/// let bundle = std::fs::read("bundle").unwrap();
/// let mut boundaries = vec![0; flangemint::track_room(bundle.len())]; // never too short
/// let verdict = flangemint::check_set(&bundle, &mut boundaries);
/// println!("{verdict}");
/// ```
pub fn check_set(data: &[u8], table: &mut [u64]) -> Verdict {
    call(flangemint_set, data, table)
}

fn call(check: Check, data: &[u8], table: &mut [u64]) -> Verdict {
    let mut numbers = [0; 5];
    // SAFETY: the pointers come from slices that live through the call, with
    // their own lengths; they are not null, even where a slice is empty. The
    // table and the verdict are borrowed mutably, so nothing overlaps.
    unsafe {
        check(data.as_ptr(), data.len(), table.as_mut_ptr(), table.len(), numbers.as_mut_ptr());
    }
    let [number, track, place, count, timescale] = numbers;
    Verdict { number, track, place, count, timescale }
}

/// No byte yet; what the other two arrays hold is of no matter.
pub fn pieces_begin(numbers: &mut Numbers) {
    // SAFETY: the pointer leads to as many numbers as are asked for, borrowed mutably.
    unsafe { flangemint_pieces_begin(numbers.as_mut_ptr()) };
}

pub fn pieces_take(numbers: &mut Numbers, head: &mut Head, kept: &mut Kept, piece: &[u8]) {
    // SAFETY: the pointers lead to arrays of the lengths that are asked for, borrowed mutably, and
    // to a slice with its own length, not null even where it is empty. Nothing overlaps.
    unsafe {
        flangemint_pieces_take(
            numbers.as_mut_ptr(),
            head.as_mut_ptr(),
            kept.as_mut_ptr(),
            piece.as_ptr(),
            piece.len(),
        );
    }
}

pub fn pieces_answer(numbers: &Numbers, head: &Head, kept: &Kept) -> Answer {
    let mut answer = [0; 7];
    // SAFETY: the pointers lead to arrays of the lengths that are asked for; the answer is another.
    unsafe {
        flangemint_pieces_answer(
            numbers.as_ptr(),
            head.as_ptr(),
            kept.as_ptr(),
            answer.as_mut_ptr(),
        );
    }
    let [number, track, place, count, timescale, first, last] = answer;
    Answer { verdict: Verdict { number, track, place, count, timescale }, first, last }
}
