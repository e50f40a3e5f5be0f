//! A verdict in words.

use crate::facts::Set;
use crate::judge::{self, Answer, BoxAt, Judged};
use crate::place::Spot;
use crate::reason::{Part, Reason, Start};
use crate::refusals::{self, Section};
use crate::stream::Streamed;
use crate::time::seconds;
use flangemint::Verdict;
use std::fmt::Write;

/// As many boundaries are shown unless all are asked for.
const SHOWN: usize = 10;

/// The line that the program `intake` prints first.
pub fn line(verdict: &Verdict, tracks: usize) -> String {
    let Verdict { number, track, place, count, timescale } = verdict;
    if verdict.is_accepted() {
        return format!("accepted tracks {tracks} fragments {count} timescale {timescale}");
    }
    format!("refused {number} track {track} at {place}")
}

/// The whole answer about a set; `each` has the lines about every file by itself.
pub fn about(set: &Set, reason: Option<&Reason>, each: &[String], all: bool) -> String {
    let mut text = line(&set.judged.verdict, set.names.len()) + "\n";
    if !each.is_empty() {
        text += "\nEach file by itself:\n";
        each.iter().for_each(|line| text += &format!("  {line}\n"));
    }
    text += "\n";
    match reason {
        Some(reason) => text += &refusal(&set.judged.verdict, reason),
        None => text += &acceptance(set, all),
    }
    text
}

/// One line about a file by itself.
pub fn alone(name: &str, verdict: &Verdict, reason: Option<&Reason>) -> String {
    let Verdict { number, place, count, timescale, .. } = verdict;
    let Some(reason) = reason else {
        return format!("{name}: accepted fragments {count} timescale {timescale}");
    };
    let spot = reason.spot.named.as_ref().map_or(String::new(), |(_, path)| format!(" ({path})"));
    let title = reason.section.map_or("", |section| section.title);
    format!("{name}: refused {number} at {place}{spot}: {title}")
}

/// A label and what stands behind it.
pub type Row = (&'static str, String);

/// What is said about an accepted set before its boundaries.
pub fn accepted(set: &Set) -> Vec<Row> {
    let mut rows: Vec<Row> = set.names.iter().map(|name| ("file", name.clone())).collect();
    let Judged { verdict, boundaries } = &set.judged;
    let time = |ticks: u64| seconds(ticks, verdict.timescale);
    if let (Some(first), Some(last)) = (boundaries.first(), boundaries.last()) {
        rows.push(("time", format!("{} to {}", time(*first), time(*last))));
    }
    rows.extend(chunk_counts(set).map(|counts| ("chunks", counts)));
    rows
}

/// How many chunks each track has, in the order of the files; `None` where each is a fragment.
fn chunk_counts(set: &Set) -> Option<String> {
    let tops = |boxes: Vec<BoxAt>| boxes.into_iter().filter(|one| one.depth == 0);
    let count = |bytes: &&[u8]| {
        let boxes = judge::index(bytes).unwrap_or_default();
        tops(boxes).filter(|one| one.kind == *b"moof").count() as u64
    };
    let counts: Vec<u64> = set.bundle.tracks().iter().map(count).collect();
    let several = counts.iter().any(|count| *count != set.judged.verdict.count);
    let counts: Vec<String> = counts.iter().map(u64::to_string).collect();
    several.then(|| counts.join(", "))
}

fn acceptance(set: &Set, all: bool) -> String {
    let mut text = lines(&accepted(set));
    let Judged { verdict, boundaries } = &set.judged;
    text += "\nBoundaries, in ticks and seconds:\n";
    let shown = if all { boundaries.len() } else { SHOWN };
    text += &boundary_lines(boundaries, shown, verdict.timescale);
    if let Some(left @ 1..) = boundaries.len().checked_sub(shown) {
        let are = if left == 1 { "is" } else { "are" };
        let _ = writeln!(text, "  {left} more {are} left out: --boundaries shows them all");
    }
    text
}

/// A line each, so many at most: ticks and seconds, as wide as the last one of all.
fn boundary_lines(boundaries: &[u64], shown: usize, timescale: u64) -> String {
    let time = |ticks: u64| seconds(ticks, timescale);
    let width = boundaries.last().map_or(0, |last| time(*last).len().max(last.to_string().len()));
    let line = |ticks: &u64| format!("  {ticks:>width$}  {:>width$}\n", time(*ticks));
    boundaries.iter().take(shown).map(line).collect()
}

/// The whole answer about a stream.
pub fn streamed(streamed: &Streamed, reason: Option<&Reason>) -> String {
    let Answer { verdict, first, last } = streamed.answer;
    let mut text = line(&verdict, 1) + "\n\n";
    let Some(reason) = reason else {
        let time = |ticks: u64| seconds(ticks, verdict.timescale);
        let time = format!("{} to {}", time(first), time(last));
        text += &lines(&[("file", streamed.name.clone()), ("time", time)]);
        text += "\nFirst and last boundary, in ticks and seconds:\n";
        return text + &boundary_lines(&[first, last], 2, verdict.timescale);
    };
    let mut rows = vec![("file", reason.file.clone())];
    // Of 1 no byte is meant.
    if verdict.number != 1 {
        let place = verdict.place;
        let ends = format!("byte {place}, where the track ends");
        let inside = format!("byte {place} of {}", streamed.bytes);
        rows.push(("place", if reason.at_end { ends } else { inside }));
    }
    rows.extend(explained(reason));
    text += &lines(&rows);
    if let Some(told) = reason.section {
        let parts = [told.means(), told.place(), told.cause(), told.remedy()];
        text += &format!("\n{}", section(told, &parts));
    }
    text
}

/// What is said about a refusal before its section.
pub fn refused(verdict: &Verdict, reason: &Reason) -> Vec<Row> {
    let mut rows = vec![("file", reason.file.clone())];
    match verdict.number {
        // No byte of a track is meant.
        1 | 23 => (),
        24 => rows.push((
            "record",
            format!("number {}, at byte {} of the bundle", verdict.track, verdict.place),
        )),
        _ => rows.push(("box", place(&reason.spot, verdict.place, reason.at_end))),
    }
    rows.extend(reason.chunk.map(|chunk| ("chunk", of_chunk(chunk, reason))));
    rows.extend(explained(reason));
    rows
}

/// `5 (the first is 0), at 2.520000 s, in fragment 1`, as far as it is known.
fn of_chunk(chunk: Part, reason: &Reason) -> String {
    let at = |start: Start| format!(", at {}", seconds(start.ticks, start.timescale));
    let start = chunk.start.map_or(String::new(), at);
    let what = if reason.begins { "the first of" } else { "in" };
    let of = reason.fragment.map(|fragment| format!(", {what} fragment {}", fragment.number));
    let of = of.unwrap_or_default();
    format!("{} (the first is 0){start}{of}", chunk.number)
}

/// Both sides of the contrast and the note, as far as they are there.
fn explained(reason: &Reason) -> Vec<Row> {
    let mut rows = Vec::new();
    if let Some(contrast) = &reason.contrast {
        rows.push(("found", contrast.found.words.clone()));
        rows.push(("expected", contrast.expected.words.clone()));
    }
    rows.extend(reason.hint.map(|hint| ("note", hint.to_owned())));
    rows
}

fn refusal(verdict: &Verdict, reason: &Reason) -> String {
    let mut text = lines(&refused(verdict, reason));
    if let Some(told) = reason.section {
        text += "\n";
        text += &section(told, &[told.means(), told.cause(), told.remedy()]);
    }
    text
}

/// `moof[1]/traf/tfdt at byte 2419, size 20`, or what there is in place of a box.
fn place(spot: &Spot, place: u64, at_end: bool) -> String {
    match (&spot.named, &spot.around) {
        (Some((one, path)), _) => format!("{path} at byte {place}, size {}", one.size),
        (None, _) if at_end => format!("none: the track ends at byte {place}"),
        (None, Some(path)) => format!("none begins at byte {place}, inside {path}"),
        (None, None) => format!("none begins at byte {place}, at the top level"),
    }
}

fn lines(rows: &[Row]) -> String {
    rows.iter().map(|(label, value)| format!("  {label:<9} {value}\n")).collect()
}

/// A section's heading and these parts of it, line by line as they are written.
fn section(section: &Section, parts: &[Option<&refusals::Part>]) -> String {
    let mut text = format!("{}. {}\n", section.number, section.title);
    for part in parts.iter().flatten() {
        text += &format!("  {}:", part.label);
        for (nth, line) in part.lines.iter().enumerate() {
            let first = nth == 0 && !line.starts_with("- ");
            text += &if first { format!(" {line}") } else { format!("\n    {line}") };
        }
        text += "\n";
    }
    text
}

/// A whole section.
pub fn explanation(told: &Section) -> String {
    section(told, &told.parts.iter().map(Some).collect::<Vec<_>>())
}
