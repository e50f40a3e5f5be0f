//! docs/REFUSALS.md, read at build time: what each number means, what causes it, what to do.

use std::sync::OnceLock;

const PAGE: &str = include_str!("../../../docs/REFUSALS.md");

/// The last number that has a section.
pub const LAST: u64 = 29;

/// `## 19. Decode time does not continue`, and what stands below it.
#[derive(Debug)]
pub struct Section {
    pub number: u64,
    pub title: &'static str,
    pub parts: Vec<Part>,
}

/// `- Means: ..` with its further lines, without the indent of the list.
#[derive(Debug)]
pub struct Part {
    pub label: &'static str,
    pub lines: Vec<&'static str>,
}

impl Part {
    /// One line; the items of a list inside it keep theirs.
    pub fn text(&self) -> String {
        let mut text = String::new();
        for line in &self.lines {
            if !text.is_empty() {
                text.push(if line.starts_with("- ") { '\n' } else { ' ' });
            }
            text += line.trim_start();
        }
        text
    }
}

impl Section {
    pub fn means(&self) -> Option<&Part> {
        self.part("Means")
    }

    pub fn place(&self) -> Option<&Part> {
        self.part("Place")
    }

    pub fn cause(&self) -> Option<&Part> {
        self.part("Usual cause")
    }

    pub fn remedy(&self) -> Option<&Part> {
        self.part("What to do")
    }

    fn part(&self, label: &str) -> Option<&Part> {
        self.parts.iter().find(|part| part.label.starts_with(label))
    }
}

/// The section of a number.
pub fn section(number: u64) -> Option<&'static Section> {
    static SECTIONS: OnceLock<Vec<Section>> = OnceLock::new();
    SECTIONS.get_or_init(|| sections(PAGE)).iter().find(|section| section.number == number)
}

/// The sections whose heading begins with a number and a point.
fn sections(page: &'static str) -> Vec<Section> {
    page.split("\n## ").skip(1).filter_map(parse).collect()
}

fn parse(text: &'static str) -> Option<Section> {
    let mut lines = text.lines();
    let (number, title) = lines.next()?.split_once(". ")?;
    let number = number.parse().ok()?;
    let mut parts: Vec<Part> = Vec::new();
    for line in lines.map(str::trim_end) {
        if let Some((label, rest)) = line.strip_prefix("- ").and_then(|item| item.split_once(':')) {
            let rest = rest.trim_start();
            parts.push(Part { label, lines: if rest.is_empty() { vec![] } else { vec![rest] } });
        } else if let (Some(part), Some(more)) = (parts.last_mut(), line.strip_prefix("  ")) {
            part.lines.push(more);
        }
    }
    Some(Section { number, title: title.trim_end(), parts })
}

#[cfg(test)]
mod tests {
    use super::*;

    #[test]
    fn every_number_has_what_is_needed() {
        for number in 0..=LAST {
            let section = section(number).unwrap_or_else(|| panic!("no section {number}"));
            assert!(!section.title.is_empty(), "{number}");
            let said = |part: Option<&Part>| part.is_some_and(|part| part.text().len() > 1);
            assert!(said(section.means()) && said(section.remedy()), "{number}");
            assert!(said(section.cause()) || number == 0, "{number}");
        }
        assert!(section(LAST + 1).is_none(), "LAST is the last");
    }

    /// Every line of a section is kept: none falls out by its format.
    #[test]
    fn no_line_is_lost() {
        for text in PAGE.split("\n## ").skip(1) {
            let Some(section) = parse(text) else { continue };
            let lines = text.lines().skip(1).filter(|line| !line.trim().is_empty()).count();
            let kept = |part: &Part| part.lines.len() + usize::from(part.text().starts_with("- "));
            let kept: usize = section.parts.iter().map(kept).sum();
            assert_eq!(kept, lines, "{}", section.number);
        }
    }

    #[test]
    fn lists_keep_their_lines() {
        let page = "\n## 6. Order\n\n- Means: one\n  two.\n- Usual cause, by place:\n  - 0: a\n    b\n  - 1: c\n";
        let [section] = &sections(page)[..] else { panic!("one section") };
        assert_eq!((section.number, section.title), (6, "Order"));
        assert_eq!(section.means().unwrap().text(), "one two.");
        assert_eq!(section.cause().unwrap().text(), "- 0: a b\n- 1: c");
        assert!(section.remedy().is_none());
    }
}
