//! Why nothing was judged or written: one line for standard error, and status 2.

use std::fmt;
use std::io;

#[derive(Debug)]
pub struct Failure(String);

impl Failure {
    pub fn new(line: impl Into<String>) -> Failure {
        Failure(line.into())
    }

    /// What the system said about a file or a stream.
    pub fn about(name: &str, error: &io::Error) -> Failure {
        let words = error.to_string();
        // The system's number says nothing that its words don't.
        let words = words.split(" (os error").next().unwrap_or_default();
        Failure(format!("{name}: {words}"))
    }
}

impl fmt::Display for Failure {
    fn fmt(&self, f: &mut fmt::Formatter) -> fmt::Result {
        f.write_str(&self.0)
    }
}
