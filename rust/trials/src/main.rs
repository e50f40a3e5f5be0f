//! Tries the product against the reference.

#[cfg(before)]
mod before;
mod bench;
mod bench_pieces;
mod drawn;
mod dump;
mod expect;
#[cfg(linked)]
mod guarded;
mod histogram;
mod judge;
mod linear;
mod lines;
mod options;
mod pieces;
mod pipe;
mod player;
mod repeat;
mod rows;
mod run;
#[cfg(linked)]
mod scribble;
mod slowest;
mod small_stack;
mod stack;
mod states;
mod streams;
mod sums;
mod tracks;
mod vectors;
mod versus;
mod wire;

use judge::Judge;
use options::Options;
use std::process::ExitCode;

const USAGE: &str = "\
usage: trials run [--seed S] [--from K] [--cases N]
                                                   the archive's verdicts and tables, N cases a job
       trials pieces [--seed S] [--from K] [--cases N]
                                                   of these the job pieces alone
       trials sums [--seed S] [--from K] [--cases N]
                                                   of these the job sums alone: long sample tables
       trials player [--seed S] [--from K] [--cases N]
                                                   the player over drawn sets, by the archive's verdicts
       trials pipe [--seed S] [--from K] [--cases N] -- COMMAND..
                                                   the same of a program that reads cases
       trials self [--seed S] [--from K] [--cases N]
                                                   the reference beside what the maker expects
       trials scribble [--seed S] [--from K] [--cases N]
                                                   the form that takes pieces with a spoilt memory: no fault
       trials stack                                worst inputs in 64 KiB of stack
       trials bench [TEXT]                         the archive's time beside the reference's, on rows whose
                                                   names contain TEXT
       trials bench pieces                         pieces beside the whole slice, alone
       trials versus [TEXT], trials versus pieces  the same rows with the archive before beside them
                                                   (`make versus BEFORE=ARCHIVE`)
       trials linear                               the archive's time a box, of tracks of 4,096 to 65,536 boxes
       trials repeat ROW JOB TIMES [archive|before|reference]
                                                   one job on one row of the bench, for a profile
       trials slowest [--seed S] [--from K] [--cases N]
                                                   drawn inputs from 10 KiB on and crowded tracks, the slowest
                                                   beside the reference
       trials vectors [--seed S] [--cases N] [--max BYTES]
                                                   write cases.bin, expected.txt, names.txt,
                                                   and those of the program `stream`
       trials lines                                the reference's lines for stored cases, from standard input
       trials expect FILE..                        what `intake` prints for bundles, under a line `== FILE` each
       trials expect                               the same for standard input, without that line
       trials dump NAME                            write an example to standard output
       trials dump                                 list the names";

fn main() -> ExitCode {
    let mut arguments = std::env::args().skip(1);
    let command = arguments.next().unwrap_or_default();
    let rest: Vec<String> = arguments.collect();
    match dispatch(&command, &rest) {
        Ok(()) => ExitCode::SUCCESS,
        Err(message) => {
            eprintln!("{message}");
            ExitCode::FAILURE
        }
    }
}

fn dispatch(command: &str, rest: &[String]) -> Result<(), String> {
    match command {
        "run" => run_as(Judge::archive()?, rest),
        "pieces" => {
            let (seed, from, cases) = span(rest)?;
            pieces::run(Judge::archive()?, seed, from, cases)
        }
        "sums" => {
            let (seed, from, cases) = span(rest)?;
            sums::run(Judge::archive()?, seed, from, cases)
        }
        "player" => {
            let (seed, from, cases) = span(rest)?;
            player::run(Judge::archive().unwrap_or(Judge::REFERENCE), seed, from, cases)
        }
        "self" => run_as(Judge::REFERENCE, rest),
        "pipe" => {
            let end = rest.iter().position(|word| word == "--").unwrap_or(rest.len());
            let (seed, from, cases) = span(&rest[..end])?;
            pipe::pipe(rest.get(end + 1..).unwrap_or_default(), seed, from, cases)
        }
        #[cfg(linked)]
        "scribble" => {
            let (seed, from, cases) = span(rest)?;
            scribble::scribble(seed, from, cases)
        }
        #[cfg(not(linked))]
        "scribble" => Judge::archive().map(drop),
        "stack" => stack::stack(Judge::archive()?),
        "bench" => bench::bench(Judge::archive()?, text(rest)?),
        "versus" => {
            // Asked for first: without it there is none before either, and this says why.
            let after = Judge::archive()?;
            versus::versus(Judge::before()?, after, text(rest)?)
        }
        "linear" => linear::linear(Judge::archive()?),
        "repeat" => repeat::repeat(rest),
        "slowest" => {
            let (seed, from, cases) = span(rest)?;
            slowest::slowest(Judge::archive()?, seed, from, cases)
        }
        "vectors" => {
            let options = Options::parse(rest, &["seed", "cases", "max"])?;
            let max = options.get("max", 16_384) as usize;
            vectors::vectors(options.get("seed", 1), options.get("cases", 900), max)
        }
        "lines" => lines::lines(),
        "expect" => expect::expect(rest),
        "dump" => dump::dump(rest),
        _ => Err(USAGE.to_string()),
    }
}

fn run_as(tried: Judge, rest: &[String]) -> Result<(), String> {
    let (seed, from, cases) = span(rest)?;
    run::run(tried, seed, from, cases)
}

/// Which cases: the seed, the first, and how many of each job.
fn span(rest: &[String]) -> Result<(u64, u64, u64), String> {
    let options = Options::parse(rest, &["seed", "from", "cases"])?;
    Ok((options.get("seed", 1), options.get("from", 0), options.get("cases", 10_000)))
}

/// One word at most, which says what rows.
fn text(rest: &[String]) -> Result<Option<&str>, String> {
    match rest {
        [] => Ok(None),
        [text] => Ok(Some(text)),
        [_, more, ..] => Err(format!("{more}: one TEXT is enough")),
    }
}
