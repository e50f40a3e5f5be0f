//! Runs the command.

use crate::folder::Folder;
use serde_json::Value;
use std::ffi::OsStr;
use std::io::Write;
use std::process::{Command, Output, Stdio};

/// What came of a call.
pub struct Ran {
    pub status: i32,
    pub out: String,
    pub err: String,
}

impl Ran {
    pub fn of(output: Output) -> Ran {
        Ran {
            status: output.status.code().expect("it ended by itself, not by a signal"),
            out: String::from_utf8(output.stdout).expect("answers are UTF-8"),
            err: String::from_utf8(output.stderr).expect("complaints are UTF-8"),
        }
    }

    pub fn first_line(&self) -> &str {
        self.out.lines().next().unwrap_or_default()
    }

    /// The answer as one JSON object.
    pub fn json(&self) -> Value {
        assert_eq!(self.out.matches('\n').count(), 1, "one line");
        serde_json::from_str(&self.out).unwrap_or_else(|error| panic!("{error}: {}", self.out))
    }

    /// Not judged: no answer, one complaint that has these words.
    #[track_caller]
    pub fn assert_not_judged(&self, words: &str) {
        assert_eq!(self.status, 2, "{}", self.err);
        assert_eq!(self.out, "");
        assert!(self.err.starts_with("flangemint: ") && self.err.contains(words), "{}", self.err);
    }
}

pub fn command<S: AsRef<OsStr>>(folder: &Folder, args: &[S]) -> Command {
    let mut command = Command::new(env!("CARGO_BIN_EXE_flangemint"));
    command.args(args).current_dir(&folder.0).stdin(Stdio::null());
    command.stdout(Stdio::piped()).stderr(Stdio::piped());
    command
}

pub fn run<S: AsRef<OsStr>>(folder: &Folder, args: &[S]) -> Ran {
    Ran::of(command(folder, args).output().unwrap())
}

/// Runs it with these bytes as standard input.
pub fn run_with<S: AsRef<OsStr>>(folder: &Folder, args: &[S], input: &[u8]) -> Ran {
    let mut child = command(folder, args).stdin(Stdio::piped()).spawn().unwrap();
    let mut stdin = child.stdin.take().unwrap();
    let input = input.to_vec();
    // It may end without reading all.
    let writer = std::thread::spawn(move || drop(stdin.write_all(&input)));
    let output = child.wait_with_output().unwrap();
    writer.join().unwrap();
    Ran::of(output)
}

/// `check` and these names.
pub fn with_names<'a>(words: &[&'a str], names: &'a [String]) -> Vec<&'a str> {
    words.iter().copied().chain(names.iter().map(String::as_str)).collect()
}
