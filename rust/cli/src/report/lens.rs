//! The place where the tracks part, magnified until one tick can be seen.

use super::mark::{Mark, Place};
use super::picture::{bars, guessed_end, name, Drawn, Line, AFTER, LEFT, PLOT};
use super::rows::Row;
use super::scale::Scale;
use super::svg::{width, Anchor, Svg, LETTER};

/// So many tracks are shown magnified; of more, the refused one and the one that it is compared with.
const MOST_ROWS: usize = 6;
const PITCH: f64 = 40.0;
const BAR: f64 = 24.0;
/// Found and expected ticks stand above the rows, where there are any.
const STRIP: f64 = 30.0;
const NO_STRIP: f64 = 4.0;
/// Between the whole and the magnified part.
const CONE: f64 = 26.0;

/// The refused stretch, in ticks of the row.
struct Window {
    from: u64,
    to: u64,
    /// Shown on both sides of it.
    around: u64,
}

/// Draws it below `top`; answers where it ends.
pub fn lens(
    svg: &mut Svg,
    rows: &[Row],
    mark: &Mark,
    whole: &Scale,
    top: f64,
    drawn: &mut Drawn,
) -> f64 {
    let row = &rows[mark.row];
    let Some(Window { from, to, around }) = window(row, mark) else { return top };
    let around = i128::from(around);
    let scale = Scale {
        from: i128::from(from) - around,
        to: i128::from(to) + around,
        timescale: row.timescale,
        left: LEFT,
        width: PLOT,
    };
    let shown = shown(rows, mark.row);
    let panel = top + CONE;
    let strip = if matches!(mark.place, Place::Ticks { .. }) { STRIP } else { NO_STRIP };
    let first = panel + strip;
    let bottom = first + PITCH * shown.len() as f64 + 4.0;
    let apex = (whole.x_inside(scale.tick(scale.from)), whole.x_inside(scale.tick(scale.to)));
    svg.polygon(
        "cone",
        &[(apex.0, top), (apex.1.max(apex.0 + 1.0), top), (scale.right(), panel), (LEFT, panel)],
    );
    svg.rect("panel", (LEFT, scale.right()), panel, bottom - panel);
    axis(svg, &scale, bottom);
    if let Some(times) = magnified(&scale, whole) {
        svg.text("axis", AFTER, panel + 12.0, Anchor::Start, &format!("× {times}"));
    }
    let ends = (scale.x(row.at(from)), scale.x(row.at(to)));
    for (nth, of) in shown.iter().enumerate() {
        let line = Line { y: first + PITCH * nth as f64 + PITCH / 2.0, height: BAR };
        name(svg, *of, &rows[*of], line, *of == mark.row);
        if rows[*of].is_empty() {
            continue;
        }
        bars(svg, &rows[*of], &scale, line, drawn);
        let refused = *of == mark.row;
        if refused {
            svg.rect("refused", ends, line.y - BAR / 2.0 - 3.0, BAR + 6.0);
        }
        labels(svg, &rows[*of], &scale, line, refused.then_some(ends));
    }
    if let Place::Ticks { found, expected, .. } = mark.place {
        let nth = shown.iter().position(|of| *of == mark.row).unwrap_or(0);
        let line = first + PITCH * nth as f64 + PITCH / 2.0;
        let distance = found.abs_diff(expected);
        let words = if distance == 1 { "1 tick".to_owned() } else { format!("{distance} ticks") };
        if width(&words) + 8.0 < ends.1 - ends.0 {
            svg.text(
                "tick refused-text",
                (ends.0 + ends.1) / 2.0,
                line + 4.0,
                Anchor::Middle,
                &words,
            );
        }
        let y = panel + 19.0;
        let (expected_x, found_x) = (scale.x(row.at(expected)), scale.x(row.at(found)));
        svg.vertical("expected", expected_x, (panel + 8.0, bottom));
        svg.vertical("guide", found_x, (panel + 8.0, line - BAR / 2.0 - 3.0));
        svg.vertical("found", found_x, (line - BAR / 2.0 - 3.0, line + BAR / 2.0 + 3.0));
        beside(svg, "tick", (expected_x, found_x), &scale, y, &format!("expected {expected}"));
        beside(
            svg,
            "tick refused-text",
            (found_x, expected_x),
            &scale,
            y,
            &format!("found {found}"),
        );
    }
    bottom + 26.0
}

/// What is magnified; the header has no time, and what is between chunks or after them no length.
fn window(row: &Row, mark: &Mark) -> Option<Window> {
    match mark.place {
        Place::Header | Place::Between { .. } | Place::Tail { .. } => None,
        Place::Chunk { start, end } => {
            let to = end.unwrap_or_else(|| guessed_end(row, start)).max(start);
            Some(Window { from: start, to, around: ((to - start) / 4 * 3).max(1) })
        }
        Place::Ticks { found, expected, .. } => {
            let (from, to) = (found.min(expected), found.max(expected));
            let distance = to - from;
            // Not much more than a fragment on each side.
            let length = row.fragment_before(expected).unwrap_or(distance);
            let around = (distance / 2).saturating_mul(3).min(length.saturating_add(length / 4));
            Some(Window { from, to, around: around.max(1) })
        }
    }
}

/// The rows that are shown, by number.
fn shown(rows: &[Row], refused: usize) -> Vec<usize> {
    if rows.len() <= MOST_ROWS {
        return (0..rows.len()).collect();
    }
    if refused == 0 {
        vec![0, 1]
    } else {
        vec![0, refused]
    }
}

fn axis(svg: &mut Svg, scale: &Scale, bottom: f64) {
    let longest = width(&scale.to.to_string());
    let most = (PLOT / (longest + 3.0 * LETTER)).clamp(1.0, 8.0) as usize;
    let labels = scale.ticks(most);
    let xs: Vec<f64> = labels.iter().map(|(x, _)| *x).collect();
    svg.verticals("grid", &xs, (bottom, bottom + 5.0));
    for (x, label) in &labels {
        svg.text("axis", *x, bottom + 19.0, Anchor::Middle, label);
    }
    svg.text(
        "axis",
        28.0,
        bottom + 19.0,
        Anchor::Start,
        &format!("ticks of 1/{} s", scale.timescale),
    );
}

/// How many times as wide it is, in two digits; `None` where it is hardly wider.
fn magnified(scale: &Scale, whole: &Scale) -> Option<String> {
    let seconds = |scale: &Scale| scale.span() as f64 / scale.timescale as f64;
    let times = seconds(whole) / seconds(scale);
    if times < 10.0 {
        return (times >= 1.5).then(|| format!("{times:.1}"));
    }
    let unit = 10_f64.powf(times.log10().floor() - 1.0);
    let digits = format!("{:.0}", (times / unit).round() * unit);
    let mut grouped = String::new();
    for (nth, digit) in digits.chars().enumerate() {
        if nth > 0 && (digits.len() - nth) % 3 == 0 {
            grouped.push(',');
        }
        grouped.push(digit);
    }
    Some(grouped)
}

/// A text on the side of a line that is away from another line, or between them where it fits nowhere else.
fn beside(svg: &mut Svg, class: &str, (x, other): (f64, f64), scale: &Scale, y: f64, text: &str) {
    let needed = width(text) + 10.0;
    let after = if x > other { scale.right() - x >= needed } else { x - scale.left < needed };
    let (anchor, aside) = if after { (Anchor::Start, 6.0) } else { (Anchor::End, -6.0) };
    svg.text(class, x + aside, y, anchor, text);
}

/// The tick of each boundary and of each chunk, where there is room and nothing refused.
fn labels(svg: &mut Svg, row: &Row, scale: &Scale, line: Line, refused: Option<(f64, f64)>) {
    let read = row.read.iter().flat_map(|read| [read.start, read.end]);
    let mut ticks: Vec<u64> = row.judged.iter().chain(&row.parts).copied().chain(read).collect();
    ticks.sort_unstable();
    ticks.dedup();
    let inside = |x: f64| x >= scale.left - 0.01 && x <= scale.right() + 0.01;
    let places: Vec<(u64, f64)> =
        ticks.into_iter().map(|at| (at, scale.x(row.at(at)))).filter(|(_, x)| inside(*x)).collect();
    let mut taken: Vec<(f64, f64)> = refused.into_iter().collect();
    for (nth, (at, x)) in places.iter().enumerate() {
        let label = at.to_string();
        let wide = width(&label) + 10.0;
        let next = places.get(nth + 1).map_or(scale.right(), |(_, x)| *x);
        let before = nth.checked_sub(1).map_or(scale.left, |nth| places[nth].1);
        let free = |from: f64, to: f64, taken: &[(f64, f64)]| {
            from >= before
                && to <= next
                && taken.iter().all(|(start, end)| to <= *start || from >= *end)
        };
        if free(*x, x + wide, &taken) {
            svg.text("tick", x + 6.0, line.y + 4.0, Anchor::Start, &label);
            taken.push((*x, x + wide));
        } else if free(x - wide, *x, &taken) {
            svg.text("tick", x - 6.0, line.y + 4.0, Anchor::End, &label);
            taken.push((x - wide, *x));
        }
    }
}
