//! Another archive of the same interface, whose functions `tools/versus` has renamed.

use crate::judge::TakesPieces;
use flangemint::{Head, Kept, Numbers, MAX_GATHERED};
use maker::cases::Job;
use reference::{PiecesAnswer, Verdict};

unsafe extern "C" {
    fn before_index(data: *const u8, len: usize, table: *mut u64, room: usize, verdict: *mut u64);
    fn before_track(data: *const u8, len: usize, table: *mut u64, room: usize, verdict: *mut u64);
    fn before_set(data: *const u8, len: usize, table: *mut u64, room: usize, verdict: *mut u64);
    fn before_pieces_begin(numbers: *mut u64);
    fn before_pieces_take(
        numbers: *mut u64,
        head: *mut u8,
        kept: *mut u8,
        data: *const u8,
        len: usize,
    );
    fn before_pieces_answer(
        numbers: *const u64,
        head: *const u8,
        kept: *const u8,
        answer: *mut u64,
    );
}

pub fn judge(job: Job, bytes: &[u8], table: &mut [u64]) -> Verdict {
    let check = match job {
        Job::Index => before_index,
        Job::Track => before_track,
        Job::Set => before_set,
    };
    let mut numbers = [0; 5];
    // SAFETY: as in the wrapper: slices with their own lengths, and nothing overlaps.
    unsafe {
        check(bytes.as_ptr(), bytes.len(), table.as_mut_ptr(), table.len(), numbers.as_mut_ptr());
    }
    let [number, track, place, count, timescale] = numbers;
    Verdict { number, track, place, count, timescale }
}

/// Its form that takes pieces.
pub struct Pieces {
    numbers: Numbers,
    head: Head,
    kept: Kept,
}

impl Default for Pieces {
    fn default() -> Pieces {
        let mut pieces = Pieces { numbers: [0; 24], head: [0; 16], kept: [0; MAX_GATHERED] };
        // SAFETY: as in the wrapper: an array of the length that is asked for.
        unsafe { before_pieces_begin(pieces.numbers.as_mut_ptr()) };
        pieces
    }
}

impl TakesPieces for Pieces {
    fn feed(&mut self, piece: &[u8]) {
        let Pieces { numbers, head, kept } = self;
        // SAFETY: as in the wrapper: arrays of the lengths that are asked for, and nothing overlaps.
        unsafe {
            before_pieces_take(
                numbers.as_mut_ptr(),
                head.as_mut_ptr(),
                kept.as_mut_ptr(),
                piece.as_ptr(),
                piece.len(),
            );
        }
    }

    fn finish(&self) -> PiecesAnswer {
        let Pieces { numbers, head, kept } = self;
        let mut answer = [0; 7];
        // SAFETY: as in the wrapper: arrays of the lengths that are asked for.
        unsafe {
            before_pieces_answer(
                numbers.as_ptr(),
                head.as_ptr(),
                kept.as_ptr(),
                answer.as_mut_ptr(),
            );
        }
        let [number, track, place, count, timescale, first, last] = answer;
        let verdict = Verdict { number, track, place, count, timescale };
        PiecesAnswer { verdict, first, last }
    }
}
