//! The job `pieces`: a track cut in several ways to a judge, and the joined bytes to the reference.

use crate::drawn::report;
use crate::histogram::Histogram;
use crate::judge::Judge;
use maker::cases::{Answer, Job};
use maker::cuts::{cut, steps};
use maker::examples::track_t;
use maker::node::{self, Header};
use maker::pieces::{declared, draw};
use maker::rng::Rng;
use reference::{pieces_whole, PiecesAnswer, Verdict, MAX_BYTES};

/// So that a case's bytes are not those of another job's case.
const STREAM: u64 = 0x7069_6563_6573;
/// How often each case is cut.
const CUTS: usize = 4;
/// Room for the boundaries of every track that is drawn.
const ROOM: usize = 600;
/// A run of so many cases must reach every number that there is.
const LARGE: u64 = 10_000;

/// Tries cases `from` to `from + cases`, and the long ones.
pub fn run(tried: Judge, seed: u64, from: u64, cases: u64) -> Result<(), String> {
    let mut histogram = Histogram::default();
    for number in from..from.saturating_add(cases) {
        let mut rng = Rng::of_case(seed ^ STREAM, number);
        let (bytes, expected) = draw(&mut rng);
        let answer = agreed(tried, &bytes, expected.as_ref(), &mut rng);
        let answer = answer.map_err(|said| report("pieces", seed, number, &bytes, &said))?;
        histogram.add(answer.verdict.number);
    }
    for number in long_cases(tried)? {
        histogram.add(number);
    }
    histogram.print("pieces");
    let missed = histogram.missed((0..=22).chain([29]));
    match missed.is_empty() || cases < LARGE {
        true => Ok(()),
        false => Err(format!("no case of the job pieces reached {missed:?}")),
    }
}

/// Gives the answer that all agree on, or the first difference.
fn agreed(
    tried: Judge,
    bytes: &[u8],
    expected: Option<&Answer>,
    rng: &mut Rng,
) -> Result<PiecesAnswer, String> {
    let whole = pieces_whole(bytes);
    if let Some(expected) = expected.map(answered).filter(|expected| *expected != whole) {
        return Err(format!("made for {expected:?}, the reference says {whole:?}"));
    }
    for _ in 0..CUTS {
        let pieces = cut(bytes, rng);
        let asked = rng.index(pieces.len());
        compare(tried, &pieces, asked, bytes, whole)?;
    }
    compare_track(tried, bytes, whole)?;
    Ok(whole)
}

/// What a case was made for, as this form answers it.
fn answered(expected: &Answer) -> PiecesAnswer {
    let Answer { number, track, place, count, timescale, ref table } = *expected;
    let verdict = Verdict { number, track, place, count, timescale };
    let [first, last] = [table.first(), table.last()].map(|tick| tick.copied().unwrap_or(0));
    PiecesAnswer { verdict, first, last }
}

/// A judge and the reference piece by piece, asked early and at the end.
fn compare(
    tried: Judge,
    pieces: &[&[u8]],
    asked: usize,
    bytes: &[u8],
    whole: PiecesAnswer,
) -> Result<(), String> {
    let before = pieces.iter().take(asked).map(|piece| piece.len()).sum();
    let right = [pieces_whole(&bytes[..before]), whole];
    for judge in [Judge::REFERENCE, tried] {
        let said = judge.form().pieces(pieces, asked);
        if said != right {
            let name = judge.name;
            let cut = described(pieces);
            return Err(format!(
                "the {name} says {said:?} after {before} bytes and at the end, \
                 the joined bytes are answered {right:?}; pieces of {cut}"
            ));
        }
    }
    Ok(())
}

/// The lengths of the first pieces.
fn described(pieces: &[&[u8]]) -> String {
    let lengths: Vec<String> = pieces.iter().map(|piece| piece.len().to_string()).collect();
    match lengths.get(..40) {
        Some(first) => format!("{} .. ({} pieces)", first.join(" "), lengths.len()),
        None => lengths.join(" "),
    }
}

/// The same judge's track check says the same where rule 29 doesn't speak.
fn compare_track(tried: Judge, bytes: &[u8], whole: PiecesAnswer) -> Result<(), String> {
    if whole.verdict.number == 29 {
        return Ok(());
    }
    let mut table = [0; ROOM];
    let verdict = tried.judge(Job::Track, bytes, &mut table);
    let [first, last] = match verdict.number {
        0 => [table[0], table[verdict.count as usize]],
        _ => [0; 2],
    };
    let said = PiecesAnswer { verdict, first, last };
    if said != whole {
        let name = tried.name;
        return Err(format!("the {name}'s track check says {said:?}, of pieces it is {whole:?}"));
    }
    Ok(())
}

/// Rule 1 on either side of its bound; gives the numbers. Zeros that nobody reads take no memory.
fn long_cases(tried: Judge) -> Result<Vec<u64>, String> {
    let t = node::bytes(&track_t());
    let rest = declared(b"free", Header::Short, (MAX_BYTES - t.len()) as u64);
    let mut numbers = Vec::new();
    for head in [
        [t, rest].concat(),
        declared(b"moof", Header::Short, 1 << 30),
        declared(b"mdat", Header::Long, (1 << 30) + 1),
        Vec::new(),
    ] {
        for len in [MAX_BYTES, MAX_BYTES + 1, MAX_BYTES + (3 << 20)] {
            let mut bytes = vec![0; len];
            bytes[..head.len()].copy_from_slice(&head);
            let whole = pieces_whole(&bytes);
            for step in [1 << 16, (1 << 20) + 1, 1 << 30, usize::MAX] {
                let mut pieces = steps(&bytes, step);
                // Asked before the last piece, and an empty one behind it changes nothing.
                let asked = pieces.len() - 1;
                pieces.push(&[]);
                compare(tried, &pieces, asked, &bytes, whole)
                    .map_err(|said| format!("{len} bytes: {said}"))?;
            }
            compare_track(tried, &bytes, whole)?;
            numbers.push(whole.verdict.number);
        }
    }
    Ok(numbers)
}

#[cfg(test)]
mod tests {
    use super::*;

    #[test]
    fn a_short_run() {
        assert_eq!(run(Judge::archive().unwrap_or(Judge::REFERENCE), 2, 0, 200), Ok(()));
    }
}
