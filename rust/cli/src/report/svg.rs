//! The few shapes that the picture is made of. Their looks are in style.css, by class.

use super::html;
use std::fmt::Write;

#[derive(Default)]
pub struct Svg(pub String);

/// Which end of a text stands at its place.
#[derive(Clone, Copy, Debug, PartialEq, Eq)]
pub enum Anchor {
    Start,
    Middle,
    End,
}

/// About as wide is a digit or a letter.
pub const LETTER: f64 = 6.8;

/// About as wide is a text.
pub fn width(text: &str) -> f64 {
    LETTER * units(text) as f64
}

/// Letters that are not ASCII may be twice as wide.
fn units(text: &str) -> usize {
    text.chars().map(|letter| if letter.is_ascii() { 1 } else { 2 }).sum()
}

/// A name that fits into so many letters: its middle is left out, as the ends tell renditions apart.
pub fn shortened(name: &str, most: usize) -> String {
    if units(name) <= most {
        return name.to_owned();
    }
    let take = |letters: &mut dyn Iterator<Item = char>, most: usize| {
        let mut left = most;
        let mut taken = Vec::new();
        for letter in letters {
            let wide = if letter.is_ascii() { 1 } else { 2 };
            if wide > left {
                break;
            }
            left -= wide;
            taken.push(letter);
        }
        taken
    };
    let front = take(&mut name.chars(), most / 3);
    let back = take(&mut name.chars().rev(), most - most / 3 - 1);
    front.into_iter().chain(['…']).chain(back.into_iter().rev()).collect()
}

impl Svg {
    pub fn rect(&mut self, class: &str, x: (f64, f64), y: f64, height: f64) {
        let wide = x.1 - x.0;
        let _ = writeln!(
            self.0,
            r#"<rect class="{class}" x="{:.2}" y="{y:.1}" width="{wide:.2}" height="{height:.1}"/>"#,
            x.0
        );
    }

    pub fn vertical(&mut self, class: &str, x: f64, y: (f64, f64)) {
        let _ = writeln!(self.0, r#"<path class="{class}" d="M{x:.2} {:.1}V{:.1}"/>"#, y.0, y.1);
    }

    /// Many vertical lines of one height.
    pub fn verticals(&mut self, class: &str, xs: &[f64], y: (f64, f64)) {
        if xs.is_empty() {
            return;
        }
        let _ = write!(self.0, r#"<path class="{class}" d=""#);
        for x in xs {
            let _ = write!(self.0, "M{x:.2} {:.1}V{:.1}", y.0, y.1);
        }
        let _ = writeln!(self.0, r#""/>"#);
    }

    pub fn polygon(&mut self, class: &str, points: &[(f64, f64)]) {
        let points: Vec<_> = points.iter().map(|(x, y)| format!("{x:.2},{y:.1}")).collect();
        let _ = writeln!(self.0, r#"<polygon class="{class}" points="{}"/>"#, points.join(" "));
    }

    pub fn text(&mut self, class: &str, x: f64, y: f64, anchor: Anchor, text: &str) {
        let anchor = match anchor {
            Anchor::Start => "start",
            Anchor::Middle => "middle",
            Anchor::End => "end",
        };
        let _ = writeln!(
            self.0,
            r#"<text class="{class}" x="{x:.1}" y="{y:.1}" text-anchor="{anchor}">{}</text>"#,
            html::text(text)
        );
    }

    /// A track's name in so many letters, the whole of it for whoever points at it.
    pub fn name(&mut self, class: &str, x: f64, y: f64, shown: &str, whole: &str) {
        let _ = writeln!(
            self.0,
            r#"<text class="{class}" x="{x:.1}" y="{y:.1}">{}<title>{}</title></text>"#,
            html::text(shown),
            html::text(whole)
        );
    }
}

#[cfg(test)]
mod tests {
    use super::*;

    #[test]
    fn names_keep_both_ends() {
        assert_eq!(shortened("low.mp4", 10), "low.mp4");
        assert_eq!(shortened("programme-1080p.mp4", 13), "prog…080p.mp4");
        assert_eq!(shortened("ééééééééé.mp4", 10), "é…é.mp4");
    }
}
