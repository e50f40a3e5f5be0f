//! A track that arrives in pieces.

use crate::calls::{pieces_answer, pieces_begin, pieces_take, Head, Kept, Numbers};
use crate::{Answer, MAX_GATHERED};
use std::fmt;
use std::io;

/// Takes one track in pieces of any length, empty ones too, and answers at the end. However the
/// bytes are cut, the answer is the same: numbers 0 to 22 as [`check_track`](crate::check_track)
/// gives them, and 29.
///
/// These 33 KB are all the memory that it takes; nothing of a data box is kept. A clone goes on by
/// itself.
///
/// ```no_run
/// use std::{fs::File, io};
///
/// let mut pieces = flangemint::Pieces::new();
/// io::copy(&mut File::open("track.mp4").unwrap(), &mut pieces).unwrap();
/// let answer = pieces.finish();
/// println!("{}, from {} to {}", answer.verdict, answer.first, answer.last);
/// ```
///
/// ```
/// let mut pieces = flangemint::Pieces::new();
/// pieces.feed(b"\0\0\0\x08fr");
/// pieces.feed(b"");
/// assert_eq!(pieces.finish().verdict.number, 2); // a header that is cut
/// pieces.feed(b"ee");
/// assert_eq!(pieces.finish().verdict.number, 6); // a box, but no track
/// ```
#[derive(Clone)]
pub struct Pieces {
    numbers: Numbers,
    head: Head,
    kept: Kept,
}

impl Pieces {
    /// No byte yet.
    pub fn new() -> Pieces {
        let mut pieces = Pieces { numbers: [0; 24], head: [0; 16], kept: [0; MAX_GATHERED] };
        pieces_begin(&mut pieces.numbers);
        pieces
    }

    /// Takes the next bytes. Once more than [`MAX_BYTES`](crate::MAX_BYTES) were fed the answer no
    /// longer changes.
    pub fn feed(&mut self, piece: &[u8]) {
        pieces_take(&mut self.numbers, &mut self.head, &mut self.kept, piece);
    }

    /// The answer about all the bytes until now. It changes nothing: feeding can go on.
    pub fn finish(&self) -> Answer {
        pieces_answer(&self.numbers, &self.head, &self.kept)
    }
}

impl Default for Pieces {
    fn default() -> Pieces {
        Pieces::new()
    }
}

/// Says what would be answered now: 32,768 bytes tell nobody anything.
impl fmt::Debug for Pieces {
    fn fmt(&self, f: &mut fmt::Formatter) -> fmt::Result {
        f.debug_struct("Pieces").field("answer", &self.finish()).finish_non_exhaustive()
    }
}

/// Every write is a piece and takes all of its bytes.
impl io::Write for Pieces {
    fn write(&mut self, piece: &[u8]) -> io::Result<usize> {
        self.feed(piece);
        Ok(piece.len())
    }

    fn flush(&mut self) -> io::Result<()> {
        Ok(())
    }
}

#[cfg(test)]
mod tests {
    use super::*;
    use crate::Verdict;

    #[test]
    fn as_long_as_in_c() {
        assert_eq!(size_of::<Pieces>(), 32_976);
    }

    /// What was never started is no verdict, and stays none whatever is fed.
    #[test]
    fn never_started() {
        let mut pieces = Pieces { numbers: [0; 24], head: [0; 16], kept: [0; MAX_GATHERED] };
        for _ in 0..2 {
            let verdict = Verdict { number: u64::MAX, ..Verdict::default() };
            assert_eq!(pieces.finish(), Answer { verdict, first: 0, last: 0 });
            pieces.feed(b"\0\0\0\x08free");
            assert_eq!(pieces.numbers, [0; 24]);
        }
    }

    #[test]
    fn shown_short() {
        assert!(format!("{:?}", Pieces::default()).len() < 200);
    }
}
