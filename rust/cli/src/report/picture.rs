//! The picture: every track's boundaries over time, a row a track, with the place where they part.

use super::html;
use super::lens;
use super::mark::{Mark, Place};
use super::rows::Row;
use super::scale::Scale;
use super::svg::{shortened, width, Anchor, Svg, LETTER};
use std::fmt::Write;

const WIDTH: f64 = 1080.0;
/// Names stand left of it.
pub const LEFT: f64 = 226.0;
pub const PLOT: f64 = 730.0;
/// What is said at the end of a row stands from here on.
pub const AFTER: f64 = LEFT + PLOT + 14.0;
/// Letters of a name.
const NAME: usize = 23;
/// The axis stands above the rows.
const TOP: f64 = 34.0;
/// Lines nearer to each other than this can't be told apart.
const NEAREST: f64 = 2.5;
/// A gap that is narrower can't be seen.
const NARROWEST: f64 = 0.5;
/// Lines between chunks keep this distance, so that the bar is still seen.
const NEAREST_PART: f64 = 4.0;

const PATTERNS: &str = r#"<defs>
<pattern id="hatch" width="6" height="6" patternUnits="userSpaceOnUse" patternTransform="rotate(45)">
<rect class="hatch-ground" width="6" height="6"/><path class="hatch-line" d="M0 0V6"/></pattern>
</defs>
"#;

pub struct Picture {
    /// One `svg` element.
    pub svg: String,
    pub drawn: Drawn,
}

/// What there is to be seen, for the legend.
#[derive(Clone, Copy, Debug, Default, PartialEq, Eq)]
pub struct Drawn {
    /// Judged fragments.
    pub judged: bool,
    /// Lines inside them, where their next chunk begins.
    pub parted: bool,
    /// Unjudged chunks.
    pub read: bool,
    /// Lines where one of them continues a fragment.
    pub continued: bool,
    /// Arrows, for unjudged chunks beyond an edge.
    pub beyond: bool,
    /// Boundaries or chunks too near to each other to have a line each.
    pub thinned: bool,
}

/// Draws the rows; `about` says in words what is to be seen.
pub fn picture(rows: &[Row], mark: Option<&Mark>, about: &str) -> Picture {
    let mut svg = Svg::default();
    let pitch = match rows.len() {
        0..=6 => 34.0,
        7..=10 => 28.0,
        _ => 23.0,
    };
    let scale = extent(rows, mark);
    let bottom = TOP + pitch * rows.len() as f64;
    let mut drawn = Drawn::default();
    if let Some(scale) = &scale {
        axis(&mut svg, scale, bottom);
    }
    for (nth, row) in rows.iter().enumerate() {
        let line = Line { y: TOP + pitch * nth as f64 + pitch / 2.0, height: pitch * 0.5 };
        let refused = mark.is_some_and(|mark| mark.row == nth);
        name(&mut svg, nth, row, line, refused);
        let class = if refused { "says refused-text" } else { "says" };
        let cross = if refused { "✕ " } else { "" };
        let above = if row.chunks.is_some() { 6.0 } else { 0.0 };
        let says = format!("{cross}{}", row.says);
        svg.text(class, AFTER, line.y + 4.0 - above, Anchor::Start, &says);
        if let Some(chunks) = &row.chunks {
            svg.text("axis small", AFTER, line.y + 9.0, Anchor::Start, chunks);
        }
        match &scale {
            Some(scale) if !row.is_empty() => {
                bars(&mut svg, row, scale, line, &mut drawn);
                numbers(&mut svg, row, scale, line);
                drawn.beyond |= arrows(&mut svg, row, scale, line);
            }
            _ => {
                svg.text("nothing", LEFT + 8.0, line.y + 4.0, Anchor::Start, "no fragment to draw")
            }
        }
    }
    let mut height = bottom + 8.0;
    if let Some(mark) = mark {
        let line = Line { y: TOP + pitch * mark.row as f64 + pitch / 2.0, height: pitch * 0.5 };
        height = point(&mut svg, rows, mark, scale.as_ref(), line, (pitch, bottom));
    }
    if let (Some(mark), Some(scale)) = (mark, &scale) {
        height = lens::lens(&mut svg, rows, mark, scale, height, &mut drawn);
    }
    let mut text = String::new();
    let _ = writeln!(
        text,
        r#"<svg viewBox="0 0 {WIDTH} {height:.0}" role="img" aria-labelledby="picture-title picture-about">"#
    );
    let title = "Boundaries of every track over time";
    let _ = writeln!(text, r#"<title id="picture-title">{title}</title>"#);
    let _ = writeln!(text, r#"<desc id="picture-about">{}</desc>"#, html::text(about));
    Picture { svg: text + PATTERNS + &svg.0 + "</svg>\n", drawn }
}

/// Where a row is drawn: its middle and its height.
#[derive(Clone, Copy)]
pub struct Line {
    pub y: f64,
    pub height: f64,
}

impl Line {
    fn top(self) -> f64 {
        self.y - self.height / 2.0
    }

    fn bottom(self) -> f64 {
        self.y + self.height / 2.0
    }
}

/// The track's number and name.
pub fn name(svg: &mut Svg, nth: usize, row: &Row, line: Line, refused: bool) {
    let y = line.y + 4.0;
    svg.text("number", 18.0, y, Anchor::End, &nth.to_string());
    let class = if refused { "name refused-text" } else { "name" };
    svg.name(class, 28.0, y, &shortened(row.label, NAME), row.name);
}

/// The time from the first to the last tick that is worth drawing. What the bytes say without being
/// judged may be far off; that is left out and an arrow stands for it.
fn extent(rows: &[Row], mark: Option<&Mark>) -> Option<Scale> {
    let drawn = || rows.iter().filter(|row| !row.is_empty() && row.timescale != 0);
    let timescale = drawn().next()?.timescale;
    let ticks = |row: &Row, ticks: u64| row.at(ticks).in_ticks_of(timescale);
    let judged = || drawn().flat_map(|row| row.judged.iter().map(|at| ticks(row, *at)));
    let read = || {
        drawn().flat_map(|row| {
            row.read.iter().map(|read| (ticks(row, read.start), ticks(row, read.end)))
        })
    };
    let length = |row: &Row| {
        let judged =
            row.judged.last().zip(row.judged.first()).map_or(0, |(last, first)| last - first);
        let read = row.read.iter().map(|read| i128::from(read.end - read.start)).sum::<i128>();
        (i128::from(judged) + read) * i128::from(timescale) / i128::from(row.timescale)
    };
    let reach = 2 * drawn().map(length).max()?;
    let first = judged().min().or_else(|| read().map(|(start, _)| start).next())?;
    let last = judged().max().unwrap_or(first);
    let near = read().filter(|(start, end)| first - start <= reach && end - last <= reach);
    let (mut from, mut to) =
        near.fold((first, last), |(from, to), (start, end)| (from.min(start), to.max(end)));
    if let Some(Mark { row, place: Place::Chunk { start, end: None }, .. }) = mark {
        // Room for a chunk whose end can't be read.
        let row = &rows[*row];
        let start = ticks(row, *start);
        let length = row.chunk_before(u64::MAX).map_or(0, |length| ticks(row, length));
        from = from.min(start);
        to = to.max(start + length);
    }
    Some(Scale { from, to: to.max(from + 1), timescale, left: LEFT, width: PLOT })
}

fn axis(svg: &mut Svg, scale: &Scale, bottom: f64) {
    svg.text("axis", 28.0, 16.0, Anchor::Start, "seconds");
    let longest = scale.seconds(2).iter().map(|(_, label)| width(label)).fold(0.0, f64::max);
    let most = (PLOT / (longest + 3.0 * LETTER)).clamp(2.0, 10.0) as usize;
    let labels = scale.seconds(most);
    let xs: Vec<f64> = labels.iter().map(|(x, _)| *x).collect();
    svg.verticals("grid", &xs, (TOP - 10.0, bottom));
    for (x, label) in &labels {
        svg.text("axis", *x, 16.0, Anchor::Middle, label);
    }
}

/// A track's fragments: judged ones as one bar, unjudged chunks as others, a dark line at each
/// boundary and a light one between the chunks of a fragment. Lines that could not be told from the
/// one before are left out.
pub fn bars(svg: &mut Svg, row: &Row, scale: &Scale, line: Line, drawn: &mut Drawn) {
    let x = |ticks: u64| scale.x(row.at(ticks));
    let mut bar = |class: &str, start: u64, end: u64| {
        let inside = x(end) >= scale.left && x(start) <= scale.right();
        if inside {
            let ends = (scale.x_inside(row.at(start)), scale.x_inside(row.at(end)));
            svg.rect(class, ends, line.top(), line.height);
        }
        inside
    };
    if let (Some(first), Some(last)) = (row.judged.first(), row.judged.last()) {
        drawn.judged |= bar("judged", *first, *last);
    }
    for (start, end) in joined(row, scale) {
        drawn.read |= bar("read", start, end);
    }
    let mut lines = |class: &str, ticks: &[u64], nearest: f64, beyond: f64| {
        let shown = apart(&inside(ticks.iter().copied().map(x), scale), nearest);
        svg.verticals(class, &shown, (line.top() - beyond, line.bottom() + beyond));
        !shown.is_empty()
    };
    let (begun, continued) = unjudged_edges(row);
    drawn.parted |= lines("part", &row.between(), NEAREST_PART, 0.0);
    drawn.continued |= lines("part unjudged", &continued, NEAREST_PART, 0.0);
    lines("boundary unjudged", &begun, NEAREST, 0.0);
    lines("boundary", row.boundaries(), NEAREST, 2.0);
    drawn.thinned |= crowded(row, scale);
}

/// Whether boundaries or chunks are too near to each other to have a line each.
fn crowded(row: &Row, scale: &Scale) -> bool {
    let starts = |continues: bool| {
        let some = row.read.iter().filter(|read| read.continues() == continues);
        let mut starts: Vec<u64> = some.map(|read| read.start).collect();
        starts.sort_unstable();
        starts
    };
    let near = |ticks: &[u64], nearest: f64| {
        let all = inside(ticks.iter().map(|at| scale.x(row.at(*at))), scale);
        apart(&all, nearest).len() < all.len()
    };
    near(row.boundaries(), NEAREST)
        || near(&row.between(), NEAREST_PART)
        || near(&starts(false), NEAREST)
        || near(&starts(true), NEAREST_PART)
}

/// Where unjudged chunks start and end, in order: first where a fragment may begin or stop, then
/// where a chunk goes on with the one before.
fn unjudged_edges(row: &Row) -> (Vec<u64>, Vec<u64>) {
    let (mut begun, mut continued) = (Vec::new(), Vec::new());
    let mut before = None;
    for read in &row.read {
        let edges = if read.continues() { &mut continued } else { &mut begun };
        edges.extend(before.filter(|end| *end != read.start));
        edges.push(read.start);
        before = Some(read.end);
    }
    begun.extend(before);
    for edges in [&mut begun, &mut continued] {
        edges.sort_unstable();
        edges.dedup();
    }
    (begun, continued)
}

/// Unjudged chunks that follow each other without a gap that can be seen, as one stretch.
fn joined(row: &Row, scale: &Scale) -> Vec<(u64, u64)> {
    let x = |ticks: u64| scale.x(row.at(ticks));
    let mut stretches: Vec<(u64, u64)> = Vec::new();
    for one in &row.read {
        match stretches.last_mut() {
            Some((_, end)) if (x(one.start) - x(*end)).abs() < NARROWEST => {
                *end = one.end.max(*end);
            }
            _ => stretches.push((one.start, one.end)),
        }
    }
    stretches
}

fn inside(xs: impl Iterator<Item = f64>, scale: &Scale) -> Vec<f64> {
    xs.filter(|x| (scale.left - 0.01..=scale.right() + 0.01).contains(x)).collect()
}

/// Places that are so far from each other.
fn apart(xs: &[f64], nearest: f64) -> Vec<f64> {
    let mut shown: Vec<f64> = Vec::new();
    for x in xs {
        if shown.last().is_none_or(|last| (x - last).abs() >= nearest) {
            shown.push(*x);
        }
    }
    shown
}

/// An arrow at the edge stands for chunks beyond it. Answers whether there is one.
fn arrows(svg: &mut Svg, row: &Row, scale: &Scale, line: Line) -> bool {
    let mut arrow = |edge: f64, tip: f64| {
        svg.polygon("beyond", &[(edge, line.y - 5.0), (tip, line.y), (edge, line.y + 5.0)]);
    };
    let x = |at: u64| scale.x(row.at(at));
    let after = row.read.iter().any(|read| x(read.start) > scale.right() + 1.0);
    let before = row.read.iter().any(|read| x(read.end) < scale.left - 1.0);
    if after {
        arrow(scale.right() + 3.0, scale.right() + 10.0);
    }
    if before {
        arrow(scale.left - 3.0, scale.left - 10.0);
    }
    after || before
}

/// The number of each fragment, where there is room for all of them.
fn numbers(svg: &mut Svg, row: &Row, scale: &Scale, line: Line) {
    let judged = (0_u64..).zip(row.judged.windows(2)).map(|(nth, ends)| (nth, ends[0], ends[1]));
    let read = fragments(row);
    let x = |ticks: u64| scale.x(row.at(ticks));
    let fits = |(number, start, end): &(u64, u64, u64)| {
        x(*end) - x(*start) >= width(&number.to_string()) + 8.0
    };
    let inside = |(_, start, end): &(u64, u64, u64)| {
        x(*start) >= scale.left - 0.01 && x(*end) <= scale.right() + 0.01
    };
    let all: Vec<_> = judged.chain(read).filter(inside).collect();
    if !all.iter().all(fits) {
        return;
    }
    for (number, start, end) in all {
        let middle = (x(start) + x(end)) / 2.0;
        svg.text("fragment", middle, line.y + 3.5, Anchor::Middle, &number.to_string());
    }
}

/// Number, start and end of each fragment that begins with an unjudged chunk, as far as its chunks
/// follow each other.
fn fragments(row: &Row) -> Vec<(u64, u64, u64)> {
    let mut found: Vec<(u64, u64, u64)> = Vec::new();
    for one in &row.read {
        let Some(number) = one.fragment else { continue };
        match found.last_mut() {
            _ if one.begins => found.push((number, one.start, one.end)),
            Some((_, _, end)) if *end == one.start => *end = one.end,
            _ => (),
        }
    }
    found
}

/// Points to the place where the tracks part; answers where the picture ends.
fn point(
    svg: &mut Svg,
    rows: &[Row],
    mark: &Mark,
    scale: Option<&Scale>,
    line: Line,
    (pitch, bottom): (f64, f64),
) -> f64 {
    let row = &rows[mark.row];
    let below = bottom + 12.0;
    let stretch = scale.and_then(|scale| stretch(row, mark, scale));
    let Some((x, ends)) = stretch else {
        // The header of every track stands before its first fragment.
        for nth in 0..rows.len() {
            let class = if nth == mark.row { "refused" } else { "header" };
            let y = TOP + pitch * nth as f64 + pitch / 2.0 - line.height / 2.0;
            svg.rect(class, (LEFT - 18.0, LEFT - 8.0), y, line.height);
        }
        svg.vertical("pointer", LEFT - 13.0, (line.bottom(), below));
        svg.text("mark refused-text", LEFT - 17.0, bottom + 26.0, Anchor::Start, &mark.words);
        return bottom + 38.0;
    };
    svg.rect("refused", ends, line.top() - 3.0, line.height + 6.0);
    // A tick is compared with the other tracks', a chunk is not.
    let across = matches!(mark.place, Place::Ticks { .. });
    svg.vertical("pointer", x, (if across { TOP - 6.0 } else { line.bottom() + 3.0 }, below));
    let (anchor, aside) = match (x - LEFT) / PLOT {
        part if part < 0.3 => (Anchor::Start, -4.0),
        part if part > 0.7 => (Anchor::End, 4.0),
        _ => (Anchor::Middle, 0.0),
    };
    svg.text("mark refused-text", x + aside, bottom + 26.0, anchor, &mark.words);
    bottom + 38.0
}

/// Where the pointer stands and how far the refused stretch goes; `None` for the header.
fn stretch(row: &Row, mark: &Mark, scale: &Scale) -> Option<(f64, (f64, f64))> {
    let x = |ticks: u64| scale.x_inside(row.at(ticks));
    let wide = |(from, to): (f64, f64)| {
        if to - from < 3.0 {
            (from - 1.0, from + 2.0)
        } else {
            (from, to)
        }
    };
    match mark.place {
        Place::Header => None,
        Place::Chunk { start, end } => {
            let ends = wide((x(start), x(end.unwrap_or_else(|| guessed_end(row, start)))));
            Some(((ends.0 + ends.1) / 2.0, ends))
        }
        Place::Ticks { found, expected, at } => {
            Some((x(at), wide((x(found.min(expected)), x(found.max(expected))))))
        }
        Place::Between { at } => Some((x(at), (x(at) - 4.0, x(at) + 4.0))),
        Place::Tail { at } => Some((x(at) + 6.0, (x(at) + 2.0, x(at) + 10.0))),
    }
}

/// A chunk whose end can't be read is drawn as long as the one before.
pub fn guessed_end(row: &Row, start: u64) -> u64 {
    start.saturating_add(row.chunk_before(start).unwrap_or(row.timescale))
}
