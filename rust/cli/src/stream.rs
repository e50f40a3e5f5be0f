//! `flangemint stream`: one track from standard input, judged while it arrives. Nothing of it is
//! kept, so that a refusal is explained by its number and place alone.

use crate::args::Stream;
use crate::bundle::MARK;
use crate::failure::Failure;
use crate::input::{open, Opened, Show};
use crate::judge::{Answer, Pieces, MOST_BYTES};
use crate::reason::Reason;
use crate::status::Status;
use crate::{json, output, words};
use std::ffi::OsStr;
use std::io::{self, IsTerminal};

pub fn run(args: &Stream) -> Result<Status, Failure> {
    if args.files.iter().any(|name| name != "-") {
        return Err(Failure::new("stream reads standard input: flangemint stream < FILE"));
    }
    // A track can't be typed.
    if io::stdin().is_terminal() {
        return Err(Failure::new("standard input is a terminal: flangemint stream < FILE"));
    }
    let streamed = Streamed::read(open(OsStr::new("-"), Show::Progress)?)?;
    let reason = Reason::of_stream(&streamed);
    let text = if args.json {
        json::line(json::streamed(&streamed, reason.as_ref()))
    } else {
        words::streamed(&streamed, reason.as_ref())
    };
    output::answer(text.as_bytes())?;
    Ok(Status::of(&streamed.answer.verdict))
}

/// A track that was read to its end, or past the limit, and judged.
pub struct Streamed {
    pub name: String,
    /// So many were read.
    pub bytes: u64,
    /// It begins like a bundle.
    pub like_bundle: bool,
    pub answer: Answer,
}

impl Streamed {
    pub fn read(file: Opened) -> Result<Streamed, Failure> {
        let name = file.name.clone();
        let mut front: Vec<u8> = Vec::with_capacity(MARK.len());
        let mut pieces = Pieces::new();
        // One byte more than the longest track is enough to hear that it is too long.
        let bytes = file.hand_on(MOST_BYTES + 1, |piece| {
            front.extend(piece.iter().take(MARK.len() - front.len()));
            pieces.feed(piece);
        })?;
        Ok(Streamed { name, bytes, like_bundle: front == MARK, answer: pieces.finish() })
    }
}

#[cfg(test)]
pub mod tests {
    use super::*;
    use crate::judge;
    use maker::cases::{Case, Job};
    use maker::examples::examples;
    use maker::mix::draw;
    use maker::rng::Rng;
    use std::collections::BTreeSet;

    /// A track in pieces of this length.
    pub fn streamed(track: &[u8], length: usize) -> Streamed {
        let mut pieces = Pieces::new();
        track.chunks(length).for_each(|piece| pieces.feed(piece));
        let (name, bytes) = ("-".to_owned(), track.len() as u64);
        Streamed { name, bytes, like_bundle: track.starts_with(&MARK), answer: pieces.finish() }
    }

    /// The answer is that of the track job, unless a box is large; it is told as it is.
    fn look(case: &Case, name: &str) -> u64 {
        let judged = judge::track(&case.bytes);
        let mut number = 0;
        for length in [1, 19, 4096, usize::MAX] {
            let one = streamed(&case.bytes, length);
            let Answer { verdict, first, last } = one.answer;
            number = verdict.number;
            if number != 29 {
                assert_eq!(verdict, judged.verdict, "{name}");
                let ends = [judged.boundaries.first(), judged.boundaries.last()];
                assert_eq!([first, last], ends.map(|tick| tick.copied().unwrap_or(0)), "{name}");
            }
            let reason = Reason::of_stream(&one);
            assert_eq!(reason.is_none(), number == 0, "{name}");
            let text = words::streamed(&one, reason.as_ref());
            assert_eq!(text.lines().next(), Some(&*words::line(&verdict, 1)), "{name}");
            let object = json::streamed(&one, reason.as_ref());
            assert_eq!(object["number"], number, "{name}");
            if let Some(reason) = reason {
                assert!(text.contains("\n  Place: ") && text.contains("\n  What to do:"), "{text}");
                assert!(reason.spot.named.is_none() && reason.spot.around.is_none(), "{name}");
            }
        }
        number
    }

    #[test]
    fn like_the_track_job() {
        for example in examples().iter().filter(|example| example.case.job == Job::Track) {
            look(&example.case, &example.name);
        }
        let mut numbers = BTreeSet::new();
        for case in 0..1000 {
            let drawn = draw(Job::Track, &mut Rng::of_case(11, case));
            numbers.insert(look(&drawn, &format!("drawn {case}")));
        }
        assert!(numbers.len() > 15, "{numbers:?}");
    }
}
