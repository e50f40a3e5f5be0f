//! `flangemint boxes`: the tree of a track, with the refused box marked.

use crate::args::Boxes;
use crate::bundle::Bundle;
use crate::facts::Track;
use crate::failure::Failure;
use crate::input::{open, Show};
use crate::judge::BoxAt;
use crate::layout::letters;
use crate::status::Status;
use crate::{json, output, words};
use std::fmt::Write;

pub const READ_HERE: &str = "\
The framing is refused, so the proved index lists nothing: the command itself read these boxes from
the bytes.";

pub fn run(args: &Boxes) -> Result<Status, Failure> {
    let file = open(&args.file, Show::Progress)?;
    let name = file.name.clone();
    let bundle = Bundle::read(vec![file], None)?;
    let tracks = bundle.tracks();
    let track = Track::of(&name, tracks.first().copied().unwrap_or_default());
    let text = if args.json { json::line(json::boxes(&track)) } else { tree(&track) };
    output::answer(text.as_bytes())?;
    Ok(Status::of(&track.alone.verdict))
}

/// The verdict, then a line a box: offset, size, type by depth.
fn tree(track: &Track) -> String {
    let verdict = &track.alone.verdict;
    let mut text = words::line(verdict, 1) + "\n";
    if verdict.number == 1 {
        return text + "The input is too long: no box of it is listed.\n";
    }
    if !track.listing.proved {
        let _ = writeln!(text, "{READ_HERE}");
    }
    let mark = format!("  <- refused {}", verdict.number);
    let refused = track.refused_box();
    for (nth, one) in track.listing.boxes.iter().enumerate() {
        let indent = 2 * one.depth;
        let mark = if refused == Some(nth) { &mark } else { "" };
        let BoxAt { offset, size, kind, .. } = one;
        let _ = writeln!(text, "{offset:>12} {size:>12} {:indent$}{}{mark}", "", letters(*kind));
    }
    if let (Some(place), None) = (track.refused_place(), refused) {
        let _ = writeln!(text, "{place:>12} {:>12} {}{mark}", "-", in_place_of_box(track, place));
    }
    text
}

/// What is said at a refused place where no box begins.
pub fn in_place_of_box(track: &Track, place: u64) -> &'static str {
    if place == track.bytes.len() as u64 {
        "end of the track"
    } else {
        "no box can be read here"
    }
}
