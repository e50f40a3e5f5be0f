//! What the command ends with.

use flangemint::Verdict;
use std::process::ExitCode;

/// In the order of the numbers: the worst of several is the greatest.
#[derive(Clone, Copy, Debug, PartialEq, Eq, PartialOrd, Ord)]
pub enum Status {
    /// Accepted, or done where nothing is judged.
    Accepted = 0,
    Refused = 1,
    /// Something could not be read, written or understood.
    NotJudged = 2,
}

impl Status {
    pub fn of(verdict: &Verdict) -> Status {
        if verdict.is_accepted() {
            Status::Accepted
        } else {
            Status::Refused
        }
    }
}

impl From<Status> for ExitCode {
    fn from(status: Status) -> ExitCode {
        ExitCode::from(status as u8)
    }
}
