//! `trials versus`: the time of two archives and of the reference, on the rows of the bench.

use crate::bench::{in_turn, measure};
use crate::bench_pieces;
use crate::judge::Judge;
use crate::rows;
use std::time::Duration;

/// How long a track in pieces is measured.
const PATIENCE: Duration = Duration::from_millis(2000);

/// All rows, and those of pieces; with a text only rows whose names contain it, or those of pieces.
pub fn versus(before: Judge, after: Judge, text: Option<&str>) -> Result<(), String> {
    let judges = [before, after, Judge::REFERENCE];
    if text != Some("pieces") {
        whole(judges, text.unwrap_or_default())?;
    }
    if let None | Some("pieces") = text {
        pieces(judges)?;
    }
    Ok(())
}

fn whole(judges: [Judge; 3], text: &str) -> Result<(), String> {
    rows::known(text)?;
    let mut lines = Lines::begin("nanoseconds a call, best of many");
    let wanted = |name: &str| name.contains(text);
    rows::each(wanted, |input| {
        let number = input.agreed(judges[0])?;
        input.agreed(judges[1])?;
        lines.add(&input.name, number, measure(judges, &input));
        Ok(())
    })?;
    lines.end();
    Ok(())
}

fn pieces(judges: [Judge; 3]) -> Result<(), String> {
    let mut lines = Lines::begin("in pieces, the reference too, nanoseconds, best of many");
    for row in bench_pieces::rows() {
        let bytes = row.bytes();
        judges.into_iter().try_for_each(|judge| row.agreed(judge, &bytes))?;
        lines.add(row.name, 0, in_turn(PATIENCE, |nth| row.time(judges[nth], &bytes)));
    }
    lines.end();
    Ok(())
}

/// The printed lines; of them the worst ratios are kept, with their names.
struct Lines {
    to_reference: (f64, String),
    to_before: (f64, String),
}

impl Lines {
    fn begin(title: &str) -> Lines {
        println!("{title}");
        println!(
            "{:54} {:>6} {:>12} {:>12} {:>12} {:>10} {:>9} {:>12}",
            "input",
            "number",
            "before",
            "after",
            "reference",
            "before/ref",
            "after/ref",
            "after/before"
        );
        Lines { to_reference: (0.0, String::new()), to_before: (0.0, String::new()) }
    }

    fn add(&mut self, name: &str, number: u64, [before, after, right]: [f64; 3]) {
        let [old, new, change] = [before / right, after / right, after / before];
        println!(
            "{name:54} {number:>6} {before:>12.0} {after:>12.0} {right:>12.0} \
             {old:>10.2} {new:>9.2} {change:>12.2}"
        );
        for (worst, ratio) in [(&mut self.to_reference, new), (&mut self.to_before, change)] {
            if ratio > worst.0 {
                *worst = (ratio, name.to_string());
            }
        }
    }

    fn end(self) {
        let Lines { to_reference, to_before } = self;
        println!("worst after/reference {:.2}: {}", to_reference.0, to_reference.1);
        println!("worst after/before {:.2}: {}", to_before.0, to_before.1);
    }
}
