//! Progress on standard error, and only where that is a terminal.

use indicatif::{ProgressBar, ProgressStyle};
use std::io::{self, IsTerminal};
use std::time::Duration;

/// Smaller files are read before a line about them could be read.
const LARGE: u64 = 64 << 20;

const READING: &str = "reading {msg} {bytes} of {total_bytes} {wide_bar}";
const READING_STREAM: &str = "reading {msg} {bytes}";
const JUDGING: &str = "{pos} of {len} sets, {msg} {wide_bar} {eta} left";
const JUDGING_STREAM: &str = "{pos} sets, {msg}";

/// The bar while a file of so many bytes is read; hidden for a small one. A stream's length is not known.
pub fn reading(name: &str, length: Option<u64>) -> ProgressBar {
    match length {
        Some(length) if length < LARGE => ProgressBar::hidden(),
        length => shown(length, READING, READING_STREAM).with_message(name.to_owned()),
    }
}

/// The bar while a list of so many sets is judged. A list from standard input has no known length.
pub fn judging(sets: Option<u64>) -> ProgressBar {
    shown(sets, JUDGING, JUDGING_STREAM).with_message("none refused")
}

fn shown(length: Option<u64>, known: &str, unknown: &str) -> ProgressBar {
    if !io::stderr().is_terminal() {
        return ProgressBar::hidden();
    }
    let bar = length.map_or_else(ProgressBar::new_spinner, ProgressBar::new);
    let template = if length.is_some() { known } else { unknown };
    if let Ok(style) = ProgressStyle::with_template(template) {
        bar.set_style(style);
    }
    bar.enable_steady_tick(Duration::from_millis(200));
    bar
}
