//! `flangemint batch`: every set of a list, on all cores, one JSON line each in the list's order.

use crate::args::Batch;
use crate::check::{open_set, read_files};
use crate::facts::Set;
use crate::failure::Failure;
use crate::input::{shown, Show};
use crate::output::{self, Reader};
use crate::reason::Reason;
use crate::status::Status;
use crate::{json, progress};
use serde_json::{json, Map, Value};
use std::collections::BTreeMap;
use std::ffi::{OsStr, OsString};
use std::fs;
use std::io::{self, BufRead, BufReader, Cursor, IsTerminal};
use std::os::unix::ffi::OsStrExt;
use std::sync::mpsc::{channel, Receiver};
use std::sync::{Condvar, Mutex, MutexGuard, PoisonError};
use std::thread;

/// Answers that may wait for the one before them. With all boundaries that of a two-hour class has
/// 78 KB, so that so many are 20 MB.
const AHEAD: u64 = 256;

const GONE: &str = "standard output was closed: the rest of the list is not judged";

pub fn run(args: &Batch) -> Result<Status, Failure> {
    let (lines, sets) = open_list(&args.list)?;
    let jobs = args
        .jobs
        .map_or_else(|| thread::available_parallelism().map_or(1, usize::from), usize::from);
    let list = List::new(lines);
    let (answers, received) = channel();
    let status = thread::scope(|scope| {
        let mut started = Err(Failure::new("no thread could be started"));
        for _ in 0..jobs {
            let answers = answers.clone();
            let worker =
                || work(&list, args.boundaries, move |answer| answers.send(answer).is_ok());
            match thread::Builder::new().spawn_scoped(scope, worker) {
                Ok(_) => started = Ok(()),
                // Fewer threads do the same work.
                Err(_) => break,
            }
        }
        drop(answers);
        started?;
        let written = write(&list, &received, progress::judging(sets));
        list.stop();
        written
    })?;
    let failed = list.state().failed.take();
    failed.map_or(Ok(status), |error| Err(Failure::about(&shown(&args.list), &error)))
}

type Lines = Box<dyn BufRead + Send>;

/// The list's lines and, for a file, the number of its sets.
fn open_list(path: &OsStr) -> Result<(Lines, Option<u64>), Failure> {
    if path == "-" {
        return Ok((Box::new(BufReader::new(io::stdin())), None));
    }
    let text = fs::read(path).map_err(|error| Failure::about(&shown(path), &error))?;
    let sets = text.split(|byte| *byte == b'\n').filter(|line| names(line).is_some()).count();
    Ok((Box::new(Cursor::new(text)), Some(sets as u64)))
}

/// The file names of a line; `None` for an empty line and a comment.
fn names(line: &[u8]) -> Option<Vec<OsString>> {
    let line = line.strip_suffix(b"\n").unwrap_or(line);
    // A list from Windows ends its lines by two bytes.
    let line = line.strip_suffix(b"\r").unwrap_or(line);
    if line.is_empty() || line.starts_with(b"#") {
        return None;
    }
    Some(line.split(|byte| *byte == b'\t').map(|name| OsStr::from_bytes(name).to_owned()).collect())
}

/// A set of the list: which one it is, the line that it stands in, and its files.
struct Item {
    nth: u64,
    line: u64,
    files: Vec<OsString>,
}

struct Answer {
    nth: u64,
    status: Status,
    text: String,
}

/// The list, handed out set by set, never far ahead of what is written.
struct List {
    state: Mutex<State>,
    moved: Condvar,
}

struct State {
    lines: Lines,
    /// Lines read.
    line: u64,
    /// Sets handed out.
    taken: u64,
    /// Answers written.
    written: u64,
    stopped: bool,
    failed: Option<io::Error>,
}

impl List {
    fn new(lines: Lines) -> List {
        let state = State { lines, line: 0, taken: 0, written: 0, stopped: false, failed: None };
        List { state: Mutex::new(state), moved: Condvar::new() }
    }

    fn state(&self) -> MutexGuard<'_, State> {
        self.state.lock().unwrap_or_else(PoisonError::into_inner)
    }

    /// The next set; waits while too many answers wait.
    fn next(&self) -> Option<Item> {
        let crowded = |state: &mut State| !state.stopped && state.taken - state.written >= AHEAD;
        let mut state =
            self.moved.wait_while(self.state(), crowded).unwrap_or_else(PoisonError::into_inner);
        if state.stopped {
            return None;
        }
        let item = state.next_set();
        state.stopped = item.is_none();
        item
    }

    fn wrote_one(&self) {
        self.state().written += 1;
        self.moved.notify_all();
    }

    fn stop(&self) {
        self.state().stopped = true;
        self.moved.notify_all();
    }
}

impl State {
    fn next_set(&mut self) -> Option<Item> {
        loop {
            let mut line = Vec::new();
            match self.lines.read_until(b'\n', &mut line) {
                Ok(0) => return None,
                Ok(_) => self.line += 1,
                Err(error) => {
                    self.failed = Some(error);
                    return None;
                }
            }
            if let Some(files) = names(&line) {
                self.taken += 1;
                return Some(Item { nth: self.taken - 1, line: self.line, files });
            }
        }
    }
}

/// Judges sets until there is none, or nobody takes the answers.
fn work(list: &List, boundaries: bool, send: impl Fn(Answer) -> bool) {
    while let Some(item) = list.next() {
        let (status, mut object) = judge(&item.files, boundaries);
        object.insert("line".into(), json!(item.line));
        if !send(Answer { nth: item.nth, status, text: json::line(object) }) {
            return;
        }
    }
    // Those that wait for room must hear that the list is at its end.
    list.stop();
}

fn judge(files: &[OsString], boundaries: bool) -> (Status, Map<String, Value>) {
    match read(files) {
        Ok(set) => {
            let reason = Reason::of_set(&set);
            (Status::of(&set.judged.verdict), json::about(&set, reason.as_ref(), boundaries))
        }
        Err(failure) => {
            let names: Vec<String> = files.iter().map(|name| shown(name)).collect();
            (Status::NotJudged, json::not_judged(&names, &failure.to_string()))
        }
    }
}

fn read(files: &[OsString]) -> Result<Set, Failure> {
    if files.iter().any(|name| name.is_empty()) {
        return Err(Failure::new("an empty file name"));
    }
    if files.iter().any(|name| name == "-") {
        return Err(Failure::new(
            "standard input (-) can't be a track of a list; a file of that name is ./-",
        ));
    }
    read_files(open_set(files, Show::Nothing)?, None)
}

/// Writes the answers in the list's order; the worst status of all.
fn write(
    list: &List,
    received: &Receiver<Answer>,
    bar: indicatif::ProgressBar,
) -> Result<Status, Failure> {
    let mut waiting: BTreeMap<u64, Answer> = BTreeMap::new();
    let mut worst = Status::Accepted;
    let mut next = 0;
    let mut refused = 0_u64;
    // On one terminal the bar makes room for each line.
    let beside_bar = io::stdout().is_terminal();
    for answer in received {
        waiting.insert(answer.nth, answer);
        while let Some(answer) = waiting.remove(&next) {
            let write = || output::answer(answer.text.as_bytes());
            let reader = if beside_bar { bar.suspend(write)? } else { write()? };
            if reader == Reader::Gone {
                return Err(Failure::new(GONE));
            }
            next += 1;
            worst = worst.max(answer.status);
            list.wrote_one();
            bar.inc(1);
            if answer.status != Status::Accepted {
                refused += 1;
                bar.set_message(format!("{refused} refused or not judged"));
            }
        }
    }
    bar.finish_and_clear();
    if next == 0 {
        output::complain("the list has no set");
    }
    Ok(worst)
}
