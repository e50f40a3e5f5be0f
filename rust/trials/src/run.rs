//! `trials run`: the same bytes and tables to a judge and to the reference.

use crate::drawn::Drawn;
use crate::histogram::Histogram;
use crate::judge::Judge;
use crate::pieces;
use crate::sums;
use maker::cases::Job;
use reference::Verdict;

/// Tries cases `from` to `from + cases` of each job, those of pieces and of sums last.
pub fn run(tried: Judge, seed: u64, from: u64, cases: u64) -> Result<(), String> {
    println!("trying the {}, seed {seed}, {cases} cases a job from case {from}", tried.name);
    for job in Job::ALL {
        let mut histogram = Histogram::default();
        for number in from..from + cases {
            let mut drawn = Drawn::make(job, seed, number);
            let verdict = agreed(tried, &mut drawn);
            histogram.add(verdict.map_err(|difference| drawn.report(&difference))?.number);
        }
        histogram.print(job.name());
    }
    pieces::run(tried, seed, from, cases)?;
    sums::run(tried, seed, from, cases)
}

/// Gives the verdict that all agree on, or the first difference.
fn agreed(tried: Judge, drawn: &mut Drawn) -> Result<Verdict, String> {
    let room = drawn.room()?;
    let mut table = drawn.table(room);
    compare(tried, drawn.case.job, &drawn.case.bytes, &mut table)
}

/// A judge and the reference on the same bytes and equal tables.
pub fn compare(tried: Judge, job: Job, bytes: &[u8], table: &mut [u64]) -> Result<Verdict, String> {
    let mut right_table = table.to_vec();
    let right = Judge::REFERENCE.judge(job, bytes, &mut right_table);
    let verdict = tried.judge(job, bytes, table);
    let name = tried.name;
    if verdict != right {
        return Err(format!("the {name} says {verdict:?}, the reference says {right:?}"));
    }
    let mut places = table.iter().zip(&right_table).enumerate();
    match places.find(|(_, (tried, right))| tried != right) {
        None => Ok(right),
        Some((at, (tried, right))) => {
            Err(format!("table[{at}] is {tried} after the {name}, {right} after the reference"))
        }
    }
}

#[cfg(test)]
mod tests {
    use super::*;

    #[test]
    fn a_short_run() {
        assert_eq!(run(Judge::archive().unwrap_or(Judge::REFERENCE), 2, 0, 200), Ok(()));
    }
}
