//! Track files: opened all at once, then read into memory, or handed on piece by piece.
//!
//! Files are read and not mapped: a mapped file that another program shortens meanwhile kills the
//! process, and the bytes that were judged must be those that the explanation reads afterwards.

use crate::failure::Failure;
use crate::progress;
use std::ffi::{OsStr, OsString};
use std::fs::File;
use std::io::{self, ErrorKind, Read};
use std::os::fd::AsFd;

/// Bytes that are handed on at once: what a pipe holds.
const PIECE: usize = 65_536;

/// A name as it is shown: what is not UTF-8 as U+FFFD, control characters escaped, so that a name
/// stays on its line.
pub fn shown(name: &OsStr) -> String {
    let mut shown = String::new();
    for letter in name.to_string_lossy().chars() {
        if letter.is_control() {
            shown.extend(letter.escape_default());
        } else {
            shown.push(letter);
        }
    }
    shown
}

/// Whether progress is shown; in a batch the bar counts sets instead.
#[derive(Clone, Copy, Debug, PartialEq, Eq)]
pub enum Show {
    Progress,
    Nothing,
}

/// A file that is there and can be read.
pub struct Opened {
    pub name: String,
    /// `None` for a stream.
    length: Option<u64>,
    source: Box<dyn Read>,
    show: Show,
}

/// Opens every file before one is read, so that a missing one is told at once.
pub fn open_all(names: &[OsString], show: Show) -> Result<Vec<Opened>, Failure> {
    if names.iter().filter(|name| *name == "-").count() > 1 {
        return Err(Failure::new("standard input (-) is named twice"));
    }
    names.iter().map(|name| open(name, show)).collect()
}

/// Opens a file; `-` is standard input.
pub fn open(path: &OsStr, show: Show) -> Result<Opened, Failure> {
    let name = shown(path);
    if path == "-" {
        // As a file: io::Stdin takes a stream that can't be read for an empty one.
        let stdin = io::stdin().as_fd().try_clone_to_owned();
        let stdin = stdin.map_err(|error| Failure::about(&name, &error))?;
        return Ok(Opened { name, length: None, source: Box::new(File::from(stdin)), show });
    }
    let file = File::open(path).map_err(|error| Failure::about(&name, &error))?;
    let facts = file.metadata().map_err(|error| Failure::about(&name, &error))?;
    if facts.is_dir() {
        return Err(Failure::new(format!("{name}: is a directory")));
    }
    let length = facts.is_file().then_some(facts.len());
    Ok(Opened { name, length, source: Box::new(file), show })
}

impl Opened {
    /// How many bytes it has, as far as one can know before it is read.
    pub fn expected(&self) -> u64 {
        self.length.unwrap_or(0)
    }

    fn bar(&self) -> indicatif::ProgressBar {
        match self.show {
            Show::Progress => progress::reading(&self.name, self.length),
            Show::Nothing => indicatif::ProgressBar::hidden(),
        }
    }

    /// Hands on the file's bytes as they come, so many at most, and keeps none; says how many there were.
    pub fn hand_on(self, most: usize, mut take: impl FnMut(&[u8])) -> Result<u64, Failure> {
        let bar = self.bar();
        let mut source = self.source.take(most as u64);
        let mut piece = vec![0; PIECE];
        let mut sum = 0;
        let read = loop {
            match source.read(&mut piece) {
                Ok(0) => break Ok(sum),
                Ok(length) => {
                    take(&piece[..length]);
                    sum += length as u64;
                    bar.inc(length as u64);
                }
                Err(error) if error.kind() == ErrorKind::Interrupted => (),
                Err(error) => break Err(Failure::about(&self.name, &error)),
            }
        };
        bar.finish_and_clear();
        read
    }

    /// Appends the file's bytes, so many at most.
    pub fn append_to(self, bytes: &mut Vec<u8>, most: usize) -> Result<(), Failure> {
        let expected = self.expected().min(most as u64) as usize;
        let room = bytes.try_reserve(expected);
        room.map_err(|_| Failure::new(format!("{}: no memory for {expected} bytes", self.name)))?;
        let bar = self.bar();
        let mut source = self.source.take(most as u64);
        let read = if bar.is_hidden() {
            source.read_to_end(bytes)
        } else {
            bar.wrap_read(source).read_to_end(bytes)
        };
        bar.finish_and_clear();
        read.map(|_| ()).map_err(|error| Failure::about(&self.name, &error))
    }
}
