//! Request 1: a track that arrives in pieces. The answer is one function of the joined bytes,
//! computed here in two ways that share no walk along the top level: from all the bytes at once
//! (`pieces_whole`), and piece by piece (`Pieces`).

mod machine;
mod whole;

use crate::kinds::{Kind, FTYP, MOOF, MOOV};
use crate::verdict::{Refusal, Verdict};

pub use machine::Pieces;
pub use whole::pieces_whole;

/// A verdict with the first and the last boundary, which are 0 on refusal.
#[derive(Clone, Copy, Debug, Default, PartialEq, Eq)]
pub struct PiecesAnswer {
    pub verdict: Verdict,
    pub first: u64,
    pub last: u64,
}

impl From<Refusal> for PiecesAnswer {
    fn from(refusal: Refusal) -> PiecesAnswer {
        PiecesAnswer { verdict: refusal.into(), ..PiecesAnswer::default() }
    }
}

/// The types that rule 29 bounds at the top level.
fn is_bounded(kind: Kind) -> bool {
    matches!(kind, FTYP | MOOV | MOOF)
}
