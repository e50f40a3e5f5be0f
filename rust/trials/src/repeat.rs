//! `trials repeat`: one job on one row of the bench, again and again, for a profile.

use crate::drawn::AMPLE;
use crate::judge::Judge;
use crate::rows;
use maker::cases::Job;
use std::hint::black_box;

/// The words are ROW JOB TIMES, and a judge, which is the archive where none is named. A row without
/// a state is the good one.
pub fn repeat(words: &[String]) -> Result<(), String> {
    let (row, job, times, judge) = match words {
        [row, job, times] => (row, job, times, Judge::archive()?),
        [row, job, times, judge] => (row, job, times, judge_of(judge)?),
        _ => {
            return Err("usage: trials repeat ROW JOB TIMES [archive|before|reference]".to_string())
        }
    };
    if !Job::ALL.iter().any(|known| known.name() == job) {
        return Err(format!("{job} is no job: index, track or set"));
    }
    let times: u64 = times.parse().map_err(|_| format!("{times} is no number"))?;
    let names = [format!("{job} {row}"), format!("{job} {row}, good")];
    let shown = rows::each(
        |name| names.iter().any(|wanted| wanted == name),
        |input| {
            let mut table = vec![0; AMPLE];
            for _ in 0..times {
                black_box(judge.judge(input.job, black_box(&input.bytes), black_box(&mut table)));
            }
            Ok(())
        },
    )?;
    match shown {
        0 => Err(format!("the bench has no row '{}'", names[0])),
        _ => Ok(()),
    }
}

fn judge_of(name: &str) -> Result<Judge, String> {
    match name {
        "archive" => Judge::archive(),
        "before" => Judge::before(),
        "reference" => Ok(Judge::REFERENCE),
        _ => Err(format!("{name} is no judge: archive, before or reference")),
    }
}

#[cfg(test)]
mod tests {
    use super::*;

    fn words(text: &str) -> Vec<String> {
        text.split('|').map(str::to_string).collect()
    }

    #[test]
    fn rows_that_there_are() {
        assert_eq!(repeat(&words("10 KiB, few large|track|2|reference")), Ok(()));
        assert_eq!(repeat(&words("16 tracks of 10 KiB|set|1|reference")), Ok(()));
        assert_eq!(repeat(&words("4,070 runs, spare byte|index|1|reference")), Ok(()));
    }

    #[test]
    fn bad_words() {
        for bad in [
            "10 KiB|track|2|reference",
            "16 tracks of 10 KiB|track|1|reference",
            "582 fragments|tracks|1|reference",
            "582 fragments|track|many|reference",
            "582 fragments|track|1|nobody",
            "582 fragments",
        ] {
            assert!(repeat(&words(bad)).is_err(), "{bad}");
        }
    }
}
