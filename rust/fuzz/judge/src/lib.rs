//! The reference behind the archive's C interface, under names of its own.

use reference::{Pieces, PiecesAnswer, Verdict};

type Check = fn(&[u8], &mut [u64]) -> Verdict;

macro_rules! export {
    ($($name:ident $check:path)*) => {
        $(
            /// # Safety
            /// As in `flangemint.h`: pointers to `len` bytes, `room` numbers and five numbers, none null.
            #[unsafe(no_mangle)]
            pub unsafe extern "C" fn $name(data: *const u8, len: usize, table: *mut u64, room: usize, verdict: *mut u64) {
                unsafe { call($check, data, len, table, room, verdict) }
            }
        )*
    };
}

export! {
    judge_index reference::index
    judge_track reference::track
    judge_set reference::set
}

unsafe fn call(
    check: Check,
    data: *const u8,
    len: usize,
    table: *mut u64,
    room: usize,
    verdict: *mut u64,
) {
    // SAFETY: the caller lends this memory for the call, and nothing of it overlaps.
    let (data, table, verdict) = unsafe {
        (
            std::slice::from_raw_parts(data, len),
            std::slice::from_raw_parts_mut(table, room),
            std::slice::from_raw_parts_mut(verdict, 5),
        )
    };
    let Verdict { number, track, place, count, timescale } = check(data, table);
    verdict.copy_from_slice(&[number, track, place, count, timescale]);
}

/// # Safety
/// Pointers to `len` bytes and seven numbers, none null.
#[unsafe(no_mangle)]
pub unsafe extern "C" fn judge_pieces_whole(data: *const u8, len: usize, answer: *mut u64) {
    // SAFETY: the caller lends this memory for the call, and nothing of it overlaps.
    unsafe { put(reference::pieces_whole(std::slice::from_raw_parts(data, len)), answer) }
}

/// A form of the judge's own, until it is ended.
#[unsafe(no_mangle)]
pub extern "C" fn judge_pieces_begin() -> *mut Pieces {
    Box::into_raw(Box::new(Pieces::new()))
}

/// # Safety
/// A form that was begun and not ended, and a pointer to `len` bytes, not null.
#[unsafe(no_mangle)]
pub unsafe extern "C" fn judge_pieces_take(form: *mut Pieces, data: *const u8, len: usize) {
    // SAFETY: the caller lends both for the call.
    unsafe { (*form).feed(std::slice::from_raw_parts(data, len)) }
}

/// # Safety
/// A form that was begun and not ended, and a pointer to seven numbers.
#[unsafe(no_mangle)]
pub unsafe extern "C" fn judge_pieces_end(form: *mut Pieces, answer: *mut u64) {
    // SAFETY: the form came from `judge_pieces_begin` and is not used again.
    unsafe { put(Box::from_raw(form).finish(), answer) }
}

unsafe fn put(said: PiecesAnswer, answer: *mut u64) {
    let PiecesAnswer { verdict, first, last } = said;
    let Verdict { number, track, place, count, timescale } = verdict;
    // SAFETY: the caller lends seven numbers.
    unsafe {
        answer.cast::<[u64; 7]>().write([number, track, place, count, timescale, first, last])
    }
}
