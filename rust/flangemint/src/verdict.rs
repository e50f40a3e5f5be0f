//! The answer of a check.

use crate::Refusal;
use std::fmt;

/// The five numbers of a verdict, as the check gives them.
#[derive(Clone, Copy, Debug, Default, PartialEq, Eq)]
pub struct Verdict {
    /// 0 on acceptance, else the number of the broken rule.
    pub number: u64,
    /// The track in the bundle that is refused.
    pub track: u64,
    /// Where the rule is broken, counted from the start of that track.
    pub place: u64,
    /// Fragments; boxes for the index; 0 on refusal.
    pub count: u64,
    /// Ticks a second; 0 for the index and on refusal.
    pub timescale: u64,
}

impl Verdict {
    pub fn is_accepted(&self) -> bool {
        self.number == 0
    }

    /// The broken rule, if there is one.
    pub fn refusal(&self) -> Option<Refusal> {
        Refusal::try_from(self.number).ok()
    }
}

/// What a track in pieces is answered with.
#[derive(Clone, Copy, Debug, Default, PartialEq, Eq)]
pub struct Answer {
    pub verdict: Verdict,
    /// The first boundary in ticks; 0 on refusal.
    pub first: u64,
    /// The last boundary in ticks; 0 on refusal.
    pub last: u64,
}

impl fmt::Display for Verdict {
    fn fmt(&self, f: &mut fmt::Formatter) -> fmt::Result {
        let Verdict { number, track, place, count, timescale } = self;
        if self.is_accepted() {
            return write!(f, "accepted count {count} timescale {timescale}");
        }
        write!(f, "refused {number} track {track} at {place}: ")?;
        match Refusal::try_from(*number) {
            Ok(refusal) => write!(f, "{refusal}"),
            Err(unknown) => write!(f, "{unknown}"),
        }
    }
}

#[cfg(test)]
mod tests {
    use super::*;

    #[test]
    fn in_words() {
        let accepted = Verdict { count: 2, timescale: 90_000, ..Verdict::default() };
        assert_eq!(accepted.to_string(), "accepted count 2 timescale 90000");
        assert_eq!(accepted.refusal(), None);

        let refused = Verdict { number: 19, track: 1, place: 700, ..Verdict::default() };
        let words =
            "refused 19 track 1 at 700: The chunk does not start where the one before it ended.";
        assert_eq!(refused.to_string(), words);
        assert_eq!(refused.refusal(), Some(Refusal::ChunkStart));

        let unknown = Verdict { number: 30, ..Verdict::default() };
        assert_eq!(unknown.to_string(), "refused 30 track 0 at 0: No rule has the number 30.");
        assert!(!unknown.is_accepted());
    }
}
