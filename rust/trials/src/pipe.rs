//! `trials pipe`: the cases to a program, by its standard input and output.

use crate::drawn::Drawn;
use crate::histogram::Histogram;
use crate::wire::{self, MAX_BYTES, MAX_ROOM};
use maker::cases::Job;
use std::io::{BufRead, BufReader, Write};
use std::process::{Child, ChildStdin, ChildStdout, Command, Stdio};

/// So many cases are made, then sent, then compared.
const BATCH: u64 = 1000;

/// Tries so many cases of each job, from this one on; those too long for a
/// program are left out and counted.
pub fn pipe(command: &[String], seed: u64, from: u64, cases: u64) -> Result<(), String> {
    println!("trying a program, seed {seed}, {cases} cases a job from case {from}");
    let mut program = Program::start(command)?;
    for job in Job::ALL {
        let mut histogram = Histogram::default();
        let mut next = from;
        let mut left = cases;
        while left > 0 {
            let batch = Batch::make(job, seed, &mut next, left.min(BATCH))?;
            program.try_batch(&batch, &mut histogram)?;
            left -= batch.cases.len() as u64;
        }
        histogram.print(job.name());
        let left_out = next - from - cases;
        if left_out > 0 {
            println!("{left_out} more, longer than {MAX_BYTES} bytes, left out");
        }
    }
    program.end()
}

/// What is sent for some cases, and what must come back for each.
#[derive(Default)]
struct Batch {
    sent: Vec<u8>,
    cases: Vec<(Drawn, u64, String)>,
}

impl Batch {
    /// So many cases, from the next one on.
    fn make(job: Job, seed: u64, next: &mut u64, cases: u64) -> Result<Batch, String> {
        let mut batch = Batch::default();
        while (batch.cases.len() as u64) < cases {
            let mut drawn = Drawn::make(job, seed, *next);
            *next += 1;
            if drawn.case.bytes.len() > MAX_BYTES {
                continue;
            }
            let room = drawn.room().map_err(|difference| drawn.report(&difference))?;
            let room = room.min(MAX_ROOM);
            let (verdict, line) = wire::answer(&drawn.case, room);
            wire::put(&drawn.case, room, &mut batch.sent);
            batch.cases.push((drawn, verdict.number, line));
        }
        Ok(batch)
    }
}

struct Program {
    child: Child,
    input: ChildStdin,
    output: BufReader<ChildStdout>,
}

impl Program {
    fn start(command: &[String]) -> Result<Program, String> {
        let (name, arguments) = command.split_first().ok_or("which program? -- COMMAND..")?;
        let mut command = Command::new(name);
        command.args(arguments).stdin(Stdio::piped()).stdout(Stdio::piped());
        let mut child = command.spawn().map_err(|error| format!("{name}: {error}"))?;
        let input = child.stdin.take().expect("it is piped");
        let output = BufReader::new(child.stdout.take().expect("it is piped"));
        Ok(Program { child, input, output })
    }

    /// Sends and reads at the same time: neither side waits for ever.
    fn try_batch(&mut self, batch: &Batch, histogram: &mut Histogram) -> Result<(), String> {
        let Program { child, input, output } = self;
        std::thread::scope(|scope| {
            // Where it fails the program has ended, and the reader sees that too.
            scope.spawn(move || input.write_all(&batch.sent).and_then(|()| input.flush()));
            let compared = compare(batch, output, histogram);
            if compared.is_err() {
                // So that the sender need not wait for a reader. It may have ended by itself.
                let _ = child.kill();
            }
            compared
        })
    }

    /// After its last case the program must end by itself, with nothing more to say.
    fn end(self) -> Result<(), String> {
        let Program { mut child, input, mut output } = self;
        drop(input);
        let rest = line(&mut output)?;
        let status = child.wait().map_err(|error| error.to_string())?;
        match rest {
            Some(rest) => Err(format!("after the last case the program says {rest:?}")),
            None if !status.success() => Err(format!("the program ended with {status}")),
            None => Ok(()),
        }
    }
}

/// The program's lines beside the right ones.
fn compare(
    batch: &Batch,
    output: &mut BufReader<ChildStdout>,
    histogram: &mut Histogram,
) -> Result<(), String> {
    for (drawn, number, right) in &batch.cases {
        let line = line(output)?.ok_or_else(|| drawn.report("the program gives no line"))?;
        if line != *right {
            let difference = format!("the program says {line:?}, the reference {right:?}");
            return Err(drawn.report(&difference));
        }
        histogram.add(*number);
    }
    Ok(())
}

/// The next line without its end, if there is one.
fn line(output: &mut BufReader<ChildStdout>) -> Result<Option<String>, String> {
    let mut line = Vec::new();
    output.read_until(b'\n', &mut line).map_err(|error| error.to_string())?;
    let text = String::from_utf8_lossy(&line);
    Ok(text.strip_suffix('\n').map(str::to_string))
}

#[cfg(test)]
mod tests {
    use super::*;

    fn with(words: &[&str]) -> Result<(), String> {
        let command: Vec<String> = words.iter().map(|word| word.to_string()).collect();
        pipe(&command, 2, 0, 3)
    }

    #[test]
    fn no_program() {
        assert!(with(&[]).is_err());
        assert!(with(&["./no such program"]).unwrap_err().starts_with("./no such program: "));
    }
}
