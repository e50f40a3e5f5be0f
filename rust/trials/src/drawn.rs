//! Drawn cases: each made from its seed and number alone.

use crate::judge::Judge;
use maker::cases::{Answer, Case, Job};
use maker::mix::draw;
use maker::rng::Rng;
use reference::Verdict;

/// Room for every table that a check can write.
pub const AMPLE: usize = 4 * reference::MAX_BOXES;

pub struct Drawn {
    pub case: Case,
    seed: u64,
    number: u64,
    rng: Rng,
}

impl Drawn {
    pub fn make(job: Job, seed: u64, number: u64) -> Drawn {
        let mut rng = Rng::of_case(seed, 3 * number + job as u64);
        Drawn { case: draw(job, &mut rng), seed, number, rng }
    }

    pub fn name(&self) -> String {
        format!("{} drawn {} {}", self.case.job.name(), self.seed, self.number)
    }

    /// A table's length around the one that is needed; an error where the
    /// reference contradicts the maker.
    pub fn room(&mut self) -> Result<usize, String> {
        let mut ample = vec![0; AMPLE];
        let verdict = Judge::REFERENCE.judge(self.case.job, &self.case.bytes, &mut ample);
        if let Some(expected) = &self.case.expected {
            as_made(expected, verdict, &ample)?;
        }
        let need = match self.case.job {
            Job::Index => 4 * verdict.count,
            Job::Track | Job::Set => verdict.count + 1,
        };
        let any = self.rng.below(2 * need + 8);
        let rooms = [0, need.saturating_sub(1), need, need, need, need + 1, need + 40, any];
        Ok(self.rng.pick(&rooms) as usize)
    }

    /// A table of this length, with anything in it.
    pub fn table(&mut self, room: usize) -> Vec<u64> {
        (0..room).map(|_| self.rng.next()).collect()
    }

    /// Leaves the bytes in a file; says what differs, and how to make the case again.
    pub fn report(&self, difference: &str) -> String {
        report(self.case.job.name(), self.seed, self.number, &self.case.bytes, difference)
    }
}

/// Leaves the bytes of a case in a file; says what differs, and how to make the case again.
pub fn report(job: &str, seed: u64, number: u64, bytes: &[u8], difference: &str) -> String {
    let name = format!("{job}-{seed}-{number}.bin");
    let dumped = match std::fs::write(&name, bytes) {
        Ok(()) => format!("bytes in {name}"),
        Err(error) => format!("{name}: {error}"),
    };
    format!("{job} seed {seed} case {number}: {difference}; {dumped}")
}

/// The reference against what the maker knows of the case.
fn as_made(expected: &Answer, verdict: Verdict, table: &[u64]) -> Result<(), String> {
    let Answer { number, track, place, count, timescale, .. } = *expected;
    let expected_verdict = Verdict { number, track, place, count, timescale };
    if verdict != expected_verdict {
        return Err(format!("made for {expected_verdict:?}, the reference says {verdict:?}"));
    }
    if !table.starts_with(&expected.table) {
        return Err("the reference writes another table than the case was made for".to_string());
    }
    Ok(())
}
