//! The page: one document with everything that it needs.

use super::mark::{mark, Mark};
use super::picture::{self, Drawn, Picture};
use super::rows::{rows, Row};
use super::{bytes, html};
use crate::args::VERSION;
use crate::facts::{Set, Track};
use crate::reason::Reason;
use crate::refusals::{Part, Section};
use crate::time::seconds;
use crate::words;
use std::fmt::Write;

/// As many boundaries of an accepted set are listed.
const BOUNDARIES: usize = 60;

const STYLE: &str = include_str!("style.css");

/// Nothing is loaded from anywhere, whatever a name may hold.
const POLICY: &str = "default-src 'none'; style-src 'unsafe-inline'; img-src data:";

const PROVED: &str = "\
<h2>What is proved</h2>
<p>The verdict line is the library's: its number, track and byte, and on acceptance its boundaries. The library is
written in Rattle and proved to accept exactly where every written rule holds, else to name the first broken one.</p>
<p>Not proved: picture, tables and words. The command computed them from the bytes, the proved index and the proved
verdicts on each track and its front, after the verdict was there. They never change it. What must be believed beside
the proofs is in docs/TRUST.md of the product.</p>
";

pub fn page(set: &Set, tracks: &[Track], reason: Option<&Reason>) -> String {
    let verdict = &set.judged.verdict;
    let rows = rows(set, tracks);
    let mark = reason.and_then(|reason| mark(verdict, reason, &rows, tracks));
    let line = words::line(verdict, set.names.len());
    let mut main = head(&line, reason);
    main += &facts(&match reason {
        Some(reason) => words::refused(verdict, reason),
        None => words::accepted(set),
    });
    main += &figure(&rows, mark.as_ref(), reason.is_some());
    match reason {
        Some(reason) => main += &refusal(set, tracks, reason),
        None => main += &boundaries(set),
    }
    if tracks.len() > 1 {
        main += &each(tracks);
    }
    format!(
        "<!DOCTYPE html>\n<html lang=\"en\">\n<head>\n<meta charset=\"utf-8\">\n\
         <meta http-equiv=\"Content-Security-Policy\" content=\"{POLICY}\">\n\
         <meta name=\"viewport\" content=\"width=device-width, initial-scale=1\">\n\
         <meta name=\"color-scheme\" content=\"light dark\">\n<link rel=\"icon\" href=\"data:,\">\n\
         <title>{} – {}</title>\n<style>\n{STYLE}</style>\n</head>\n<body>\n<main>\n{main}</main>\n\
         <footer>\n{PROVED}{}</footer>\n</body>\n</html>\n",
        html::text(&line),
        html::text(&set.names.join(", ")),
        versions()
    )
}

/// The verdict: its title, and the line as the program says it.
fn head(line: &str, reason: Option<&Reason>) -> String {
    let (class, sign, title) = match reason {
        None => ("accepted", "✓", "Accepted".to_owned()),
        Some(reason) => {
            let title =
                reason.section.map_or(String::new(), |section| format!(": {}", section.title));
            ("refused", "✕", format!("Refused{title}"))
        }
    };
    format!(
        "<header>\n<p class=\"over\">Flangemint intake report</p>\n<h1>{}</h1>\n\
         <p class=\"verdict {class}\"><span aria-hidden=\"true\">{sign}</span> <code>{}</code></p>\n</header>\n",
        html::text(&title),
        html::text(line)
    )
}

/// Labels and what stands behind them; a label that repeats is said once.
fn facts(rows: &[words::Row]) -> String {
    let mut text = "<dl class=\"facts\">\n".to_owned();
    let mut before = "";
    for (label, value) in rows {
        if *label != before {
            let _ = writeln!(text, "<dt>{label}</dt>");
        }
        let _ = writeln!(text, "<dd><bdi>{}</bdi></dd>", html::text(value));
        before = label;
    }
    text + "</dl>\n"
}

fn figure(rows: &[Row], mark: Option<&Mark>, refused: bool) -> String {
    let heading = if refused { "Where it breaks" } else { "Boundaries over time" };
    let mut about = match mark {
        Some(mark) => format!("Track {}: {}.", mark.row, mark.words),
        None if refused => "The refusal points to no place in a track.".to_owned(),
        None => "Every track has the same boundaries.".to_owned(),
    };
    if !refused && rows.len() == 1 {
        about = "The boundaries of the track.".to_owned();
    }
    let Picture { svg, drawn } = picture::picture(rows, mark, &about);
    let legend = legend(drawn, mark.is_some());
    format!(
        "<section>\n<h2>{heading}</h2>\n<figure>\n{svg}<figcaption>{legend}</figcaption>\n</figure>\n</section>\n"
    )
}

/// An entry for everything that is drawn, and for nothing else.
fn legend(drawn: Drawn, marked: bool) -> String {
    let entries = [
        (drawn.judged, "judged", "fragments that the library accepts"),
        (drawn.parted, "judged parted", "in several chunks"),
        (drawn.read, "read", "chunks as the bytes have them, not judged"),
        (drawn.continued, "read parted", "those that continue a fragment"),
        (marked, "refused", "where the refusal is"),
    ];
    let notes = [
        (drawn.beyond, "An arrow stands for chunks beyond the edge."),
        (drawn.thinned, "Some boundaries or chunks are too near to each other for a line each."),
    ];
    let mut legend = String::new();
    for (_, class, words) in entries.into_iter().filter(|(there, ..)| *there) {
        let _ = write!(legend, "<span><i class=\"{class}\"></i>{words}</span> ");
    }
    for (_, words) in notes.into_iter().filter(|(there, _)| *there) {
        let _ = write!(legend, "<span>{words}</span> ");
    }
    legend
}

/// What the number means, and the boxes and bytes around the place.
fn refusal(set: &Set, tracks: &[Track], reason: &Reason) -> String {
    let verdict = &set.judged.verdict;
    let mut text = reason.section.map_or(String::new(), meaning);
    let track = usize::try_from(verdict.track).ok().and_then(|nth| tracks.get(nth));
    // 1, 23 and 24 point to no byte of a track.
    let Some(track) = track.filter(|_| !matches!(verdict.number, 1 | 23 | 24)) else { return text };
    let _ = writeln!(
        text,
        "<section>\n<h2>Boxes around byte {}</h2>\n{}</section>",
        verdict.place,
        bytes::boxes(track, verdict)
    );
    let _ = writeln!(
        text,
        "<section>\n<h2>Bytes around {}</h2>\n{}</section>",
        verdict.place,
        bytes::hex(track, verdict)
    );
    text
}

fn meaning(section: &Section) -> String {
    let parts = [section.means(), section.cause(), section.remedy()];
    let parts: String = parts.into_iter().flatten().map(part).collect();
    let number = section.number;
    format!("<section>\n<h2>What {number} means</h2>\n<dl class=\"facts meaning\">\n{parts}</dl>\n</section>\n")
}

/// A part of docs/REFUSALS.md: sentences, and the items of a list.
fn part(part: &Part) -> String {
    let mut text = format!("<dt>{}</dt>\n<dd>", html::text(part.label));
    let mut items = String::new();
    for line in part.text().lines() {
        match line.strip_prefix("- ") {
            Some(item) => items += &format!("<li>{}</li>\n", html::prose(item)),
            None => text += &format!("<p>{}</p>\n", html::prose(line)),
        }
    }
    if !items.is_empty() {
        text += &format!("<ul>\n{items}</ul>\n");
    }
    text + "</dd>\n"
}

/// The boundaries of an accepted set, in ticks and seconds.
fn boundaries(set: &Set) -> String {
    let judged = &set.judged;
    let mut text = "<section>\n<h2>Boundaries in ticks and seconds</h2>\n".to_owned();
    text += "<ol class=\"boundaries\" start=\"0\">\n";
    for ticks in judged.boundaries.iter().take(BOUNDARIES) {
        let _ = writeln!(
            text,
            "<li><b>{ticks}</b> <span>{}</span></li>",
            seconds(*ticks, judged.verdict.timescale)
        );
    }
    text += "</ol>\n";
    if let Some(left @ 1..) = judged.boundaries.len().checked_sub(BOUNDARIES) {
        let are = if left == 1 { "is" } else { "are" };
        let _ = writeln!(
            text,
            "<p class=\"note\">{left} more {are} left out: <code>flangemint check --boundaries</code> shows them all.</p>"
        );
    }
    text + "</section>\n"
}

/// What the track job says of every file.
fn each(tracks: &[Track]) -> String {
    let mut text =
        "<section>\n<h2>Each file by itself</h2>\n<ol class=\"each\" start=\"0\">\n".to_owned();
    for track in tracks {
        let reason = Reason::of_track(track);
        let line = words::alone(track.name, &track.alone.verdict, reason.as_ref());
        let _ = writeln!(text, "<li><bdi>{}</bdi></li>", html::text(&line));
    }
    text + "</ol>\n</section>\n"
}

fn versions() -> String {
    let lines: Vec<String> = VERSION.lines().map(html::text).collect();
    format!("<p class=\"versions\">flangemint {}</p>\n", lines.join(" · "))
}
