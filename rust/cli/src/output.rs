//! Standard output has answers alone, standard error the rest; neither can make the command panic.

use crate::failure::Failure;
use std::io::{self, ErrorKind, Write};

/// Whether anybody still reads.
#[derive(Clone, Copy, Debug, PartialEq, Eq)]
pub enum Reader {
    There,
    Gone,
}

/// Writes an answer. A reader that went away (`| head -1`) has what it wanted; a full disk is a failure.
pub fn answer(text: &[u8]) -> Result<Reader, Failure> {
    let mut out = io::stdout().lock();
    match out.write_all(text).and_then(|()| out.flush()) {
        Ok(()) => Ok(Reader::There),
        Err(error) if error.kind() == ErrorKind::BrokenPipe => Ok(Reader::Gone),
        Err(error) => Err(Failure::about("standard output", &error)),
    }
}

/// A line on standard error. If even that can't be written, the status still tells.
pub fn complain(line: &str) {
    let _ = writeln!(io::stderr().lock(), "flangemint: {line}");
}
