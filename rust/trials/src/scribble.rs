//! `trials scribble`: the form that takes pieces with a memory that was never started, or that
//! somebody wrote into. It may answer anything, but nothing may fault: the arrays and the pieces
//! stand between guards, and the stack is small.

use crate::guarded::Guarded;
use crate::small_stack::with_stack;
use flangemint::{pieces_answer, pieces_begin, pieces_take, Answer, Head, Kept, Numbers};
use maker::pieces::draw;
use maker::rng::Rng;

const STACK: usize = 64 * 1024;
/// Tracks that the cases of one batch share; drawing them takes more stack.
const TRACKS: usize = 50;
const CASES_A_BATCH: u64 = 1000;
const LONGEST: usize = 200_000;
/// The number of an answer without a verdict.
const NONE: u64 = u64::MAX;
const NUMBERS: usize = size_of::<Numbers>() / size_of::<u64>();
const HEAD: usize = size_of::<Head>();
const KEPT: usize = size_of::<Kept>();

/// The three arrays, wherever they stand.
struct Lent<'a> {
    numbers: &'a mut Numbers,
    head: &'a mut Head,
    kept: &'a mut Kept,
}

impl Lent<'_> {
    fn begin(&mut self) {
        pieces_begin(self.numbers);
    }

    fn take(&mut self, piece: &[u8]) {
        pieces_take(self.numbers, self.head, self.kept, piece);
    }

    fn answer(&self) -> Answer {
        pieces_answer(self.numbers, self.head, self.kept)
    }
}

/// How the cases ended.
#[derive(Default)]
struct Ends {
    without: u64,
    accepted: u64,
    refused: u64,
    /// With a number that no rule has: it was the memory's.
    unknown: u64,
}

/// Tries cases `from` to `from + cases`.
pub fn scribble(seed: u64, from: u64, cases: u64) -> Result<(), String> {
    println!("scribbled memory in {STACK} bytes of stack, seed {seed}, {cases} cases");
    let mut all = Ends::default();
    let end = from.saturating_add(cases);
    for first in (from..end).step_by(CASES_A_BATCH as usize) {
        let last = end.min(first + CASES_A_BATCH);
        let mut rng = Rng::of_case(!seed, first);
        let tracks: Vec<Vec<u8>> = (0..TRACKS).map(|_| draw(&mut rng).0).collect();
        let ends = with_stack(STACK, move || batch(&tracks, seed, first..last))??;
        all.without += ends.without;
        all.accepted += ends.accepted;
        all.refused += ends.refused;
        all.unknown += ends.unknown;
    }
    let Ends { without, accepted, refused, unknown } = all;
    println!("no verdict {without}, accepted {accepted}, refused {refused}, unknown {unknown}");
    println!("no fault");
    Ok(())
}

fn batch(tracks: &[Vec<u8>], seed: u64, cases: std::ops::Range<u64>) -> Result<Ends, String> {
    let mut ends = Ends::default();
    let mut numbers = Guarded::new(8 * NUMBERS)?;
    let mut head = Guarded::new(HEAD)?;
    let mut kept = Guarded::new(KEPT)?;
    let mut room = Guarded::new(LONGEST)?;
    for case in cases {
        let mut rng = Rng::of_case(seed, case);
        let at_end = rng.chance(50);
        let mut lent = Lent {
            numbers: numbers.numbers(NUMBERS, at_end).try_into().expect("its length"),
            head: head.bytes(HEAD, at_end).try_into().expect("its length"),
            kept: kept.bytes(KEPT, at_end).try_into().expect("its length"),
        };
        let track = &tracks[rng.index(tracks.len())];
        match one(&mut lent, &mut room, track, &mut rng) {
            NONE => ends.without += 1,
            0 => ends.accepted += 1,
            1..=22 | 29 => ends.refused += 1,
            _ => ends.unknown += 1,
        }
    }
    Ok(ends)
}

/// Some pieces before the memory is spoilt, some after; gives the last answer's number.
fn one(lent: &mut Lent, room: &mut Guarded, track: &[u8], rng: &mut Rng) -> u64 {
    let split = rng.index(track.len().min(LONGEST) + 1);
    let (before, after) = track.split_at(split);
    match rng.below(6) {
        0 => lent.numbers.fill_with(|| rng.next()),
        1 => lent.numbers.fill_with(|| rng.below(70_000)),
        2 => lent.numbers.fill(0),
        _ => {
            lent.begin();
            feed(lent, room, before, rng);
        }
    }
    if rng.chance(30) {
        let from = rng.index(KEPT);
        lent.kept[from..].fill_with(|| rng.next() as u8);
    }
    if rng.chance(30) {
        lent.head.fill_with(|| rng.next() as u8);
    }
    for _ in 0..rng.within(1..=3) {
        change(lent.numbers, rng);
    }
    if rng.chance(50) {
        lent.answer();
    }
    feed(lent, room, after, rng);
    if rng.chance(20) {
        change(lent.numbers, rng);
    }
    lent.answer().verdict.number
}

/// A few pieces of these bytes, each against a guard.
fn feed(lent: &mut Lent, room: &mut Guarded, bytes: &[u8], rng: &mut Rng) {
    let mut rest = bytes;
    for _ in 0..rng.below(6) {
        let len = rng.index(rest.len().min(LONGEST) + 1);
        let (piece, behind) = rest.split_at(rng.pick(&[0, len, len, rest.len().min(LONGEST)]));
        rest = behind;
        let guarded = room.bytes(piece.len(), rng.chance(50));
        guarded.copy_from_slice(piece);
        lent.take(guarded);
    }
}

/// Another value for one of the numbers: near the old, one that means something, or any.
fn change(numbers: &mut Numbers, rng: &mut Rng) {
    let at = rng.index(NUMBERS);
    let old = numbers[at];
    let bit = old ^ 1 << rng.below(64);
    let other = numbers[rng.index(NUMBERS)];
    let small = rng.below(10);
    let any = rng.next();
    let known = rng.pick(&[16, 65_535, 65_536, 32_767, 32_768, 32_769, 1 << 30, u64::MAX, 1 << 63]);
    let near = [old.wrapping_add(1), old.wrapping_sub(1)];
    numbers[at] = rng.pick(&[near[0], near[1], bit, other, small, any, known]);
}

#[cfg(test)]
mod tests {
    use super::*;
    use maker::cuts::cut;

    /// Arrays that hold this byte everywhere.
    fn filled(byte: u8) -> (Numbers, Head, Box<Kept>) {
        (
            [u64::from_ne_bytes([byte; 8]); NUMBERS],
            [byte; HEAD],
            vec![byte; KEPT].try_into().expect("its length"),
        )
    }

    /// A memory that was never started has no verdict, and no piece gives it one.
    #[test]
    fn never_started() {
        for byte in [0, 0xA5, 0xFF] {
            let (numbers, head, kept) = &mut filled(byte);
            let mut lent = Lent { numbers, head, kept };
            for piece in [&b""[..], b"\0\0\0\x08free"] {
                lent.take(piece);
                assert_eq!(lent.answer().verdict.number, NONE, "{byte}");
            }
        }
    }

    /// What a memory held before it was started is of no matter.
    #[test]
    fn started_anew() {
        let mut rng = Rng::of_case(1, 0);
        let (numbers, head, kept) = &mut filled(0xA5);
        let mut lent = Lent { numbers, head, kept };
        for _ in 0..500 {
            let track = draw(&mut rng).0;
            lent.begin();
            cut(&track, &mut rng).into_iter().for_each(|piece| lent.take(piece));
            let mut clean = flangemint::Pieces::new();
            clean.feed(&track);
            assert_eq!(lent.answer(), clean.finish());
        }
    }

    #[test]
    fn a_short_run() {
        assert_eq!(scribble(2, 0, 500), Ok(()));
    }
}
