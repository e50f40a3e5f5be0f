//! The boxes and the bytes around a refused place.

use super::html;
use crate::boxes::{in_place_of_box, READ_HERE};
use crate::facts::Track;
use crate::place::paths;
use flangemint::Verdict;
use std::fmt::Write;

/// Boxes shown before the refused one, and as many after it.
const AROUND: usize = 6;
/// Bytes a line.
const LINE: usize = 16;
/// Bytes shown from the place on; one line is shown before it.
const SHOWN: usize = 64;

/// A table of the boxes around the place, with the refused one marked.
pub fn boxes(track: &Track, verdict: &Verdict) -> String {
    let boxes = &track.listing.boxes;
    let at = boxes.partition_point(|one| one.offset < verdict.place);
    let refused = track.view().at(verdict.place);
    let paths = paths(boxes);
    let mark = format!("<td>◀ refused {}</td>", verdict.number);
    let mut rows = String::new();
    let range = at.saturating_sub(AROUND)..boxes.len().min(at + AROUND + 1);
    let (first, last) = (range.start, range.end);
    for nth in range {
        if nth == at && refused.is_none() {
            rows += &placeless(track, verdict.place, &mark);
        }
        let one = &boxes[nth];
        let (class, mark) = if refused == Some(nth) {
            (r#" class="marked""#, mark.as_str())
        } else {
            ("", "<td></td>")
        };
        let path = html::text(&paths[nth]);
        let _ = writeln!(
            rows,
            "<tr{class}><td>{}</td><td>{}</td><td><code>{path}</code></td>{mark}</tr>",
            one.offset, one.size
        );
    }
    if at >= last && refused.is_none() {
        rows += &placeless(track, verdict.place, &mark);
    }
    let note = if track.listing.proved { "" } else { READ_HERE };
    let note =
        if note.is_empty() { String::new() } else { format!("<p class=\"note\">{note}</p>\n") };
    let total = boxes.len();
    let caption = match last - first {
        shown if shown == total => format!("All {total} boxes that are listed."),
        shown => format!("{shown} of {total} boxes."),
    };
    format!(
        "{note}<table class=\"boxes\">\n<caption>{caption}</caption>\n<thead><tr><th>offset</th>\
         <th>size</th><th>box</th><th></th></tr></thead>\n<tbody>\n{rows}</tbody>\n</table>\n"
    )
}

/// The row of a place at which no box begins.
fn placeless(track: &Track, place: u64, mark: &str) -> String {
    let what = in_place_of_box(track, place);
    format!("<tr class=\"marked\"><td>{place}</td><td>–</td><td>{what}</td>{mark}</tr>\n")
}

/// The bytes from the place on, and a line before it; those of the refused box are marked.
pub fn hex(track: &Track, verdict: &Verdict) -> String {
    let place = usize::try_from(verdict.place).unwrap_or(usize::MAX).min(track.bytes.len());
    let size = track.view().at(verdict.place).map_or(0, |nth| track.listing.boxes[nth].size);
    let end = place.saturating_add(usize::try_from(size).unwrap_or(usize::MAX));
    let marked = |at: usize| at >= place && at < end;
    let last = track.bytes.len().min(place.saturating_add(SHOWN));
    let first = place.saturating_sub(LINE);
    let mut starts: Vec<usize> = (place..last).step_by(LINE).collect();
    if first < place {
        starts.insert(0, first);
    }
    let mut rows = String::new();
    for start in starts {
        let stop = if start < place { place } else { last.min(start + LINE) };
        let bytes = || track.bytes[start..stop].iter().zip(start..);
        let hex = joined(bytes().map(|(byte, at)| (format!("{byte:02x}"), marked(at))), " ");
        let ascii = joined(bytes().map(|(byte, at)| (letter(*byte), marked(at))), "");
        let _ = writeln!(rows, "<tr><td>{start}</td><td>{hex}</td><td>{ascii}</td></tr>");
    }
    if rows.is_empty() {
        return "<p>The track has no bytes.</p>\n".to_owned();
    }
    format!(
        "<table class=\"hex\">\n<thead><tr><th>offset</th><th>bytes</th><th>ASCII</th></tr></thead>\n\
         <tbody>\n{rows}</tbody>\n</table>\n"
    )
}

/// A byte as a letter of ASCII, else a point.
fn letter(byte: u8) -> String {
    match byte {
        b' '..=b'~' => html::text(&char::from(byte).to_string()),
        _ => "·".to_owned(),
    }
}

/// Parts in one row, those that follow each other and are marked in one `mark`.
fn joined(parts: impl Iterator<Item = (String, bool)>, between: &str) -> String {
    let mut text = String::new();
    let mut open = false;
    for (nth, (part, marked)) in parts.enumerate() {
        if open && !marked {
            text += "</mark>";
        }
        if nth > 0 {
            text += between;
        }
        if marked && !open {
            text += "<mark>";
        }
        text += &part;
        open = marked;
    }
    text + if open { "</mark>" } else { "" }
}

#[cfg(test)]
mod tests {
    use super::*;

    #[test]
    fn marks_are_closed() {
        let parts = [("a", false), ("b", true), ("c", true), ("d", false), ("e", true)];
        let text = joined(parts.iter().map(|(part, marked)| (part.to_string(), *marked)), " ");
        assert_eq!(text, "a <mark>b c</mark> d <mark>e</mark>");
    }
}
