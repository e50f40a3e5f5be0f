//! `flangemint report`: one page that shows where a ladder breaks.
//!
//! The verdict is that of `check`. Picture, tables and words are computed from the bytes and the
//! proved jobs after it is there, and never change it.

mod bytes;
mod html;
mod lens;
mod mark;
mod page;
mod picture;
mod rows;
mod scale;
mod svg;

use crate::args::Report;
use crate::check::{open_set, read_files};
use crate::facts::{Set, Track};
use crate::failure::Failure;
use crate::input::Show;
use crate::pack;
use crate::reason::Reason;
use crate::status::Status;

pub fn run(args: &Report) -> Result<Status, Failure> {
    let set = read_files(open_set(&args.files, Show::Progress)?, None)?;
    pack::put(&args.output, &args.files, page(&set).as_bytes())?;
    Ok(Status::of(&set.judged.verdict))
}

fn page(set: &Set) -> String {
    let reason = Reason::of_set(set);
    // Of an input that is too long no track was looked at, and none is whole.
    let whole = set.judged.verdict.number != 1;
    let tracks: Vec<Track> =
        (0..set.names.len()).filter(|_| whole).filter_map(|nth| set.track(nth)).collect();
    page::page(set, &tracks, reason.as_ref())
}

#[cfg(test)]
mod tests {
    use super::*;
    use crate::bundle::Bundle;
    use crate::words;
    use maker::bundle::record;
    use maker::cases::{Case, Job};
    use maker::examples::examples;
    use maker::mix::draw;
    use maker::rng::Rng;

    /// What must be so of every page; answers the number.
    fn look(case: &Case, name: &str) -> u64 {
        let set = match case.job {
            Job::Set => Set::of_bundle("set".to_owned(), Bundle::packed(case.bytes.clone())),
            _ => Set::of_files(vec!["a".to_owned()], Bundle::packed(record(&case.bytes))),
        };
        let verdict = set.judged.verdict;
        let page = page(&set);
        let line = words::line(&verdict, set.names.len());
        assert!(page.contains(&format!("<code>{line}</code>")), "{name}");
        assert!(!page.contains("NaN") && !page.contains("=\"inf"), "{name}: a place that is none");
        assert!(!page.contains(r#"width="-"#), "{name}: a stretch that ends before it begins");
        let marked = !matches!(verdict.number, 0 | 1 | 23 | 24);
        let count = |text: &str| page.matches(text).count();
        assert_eq!(count("<text class=\"mark "), usize::from(marked), "{name}: {line}");
        assert_eq!(count("<tr class=\"marked\">"), usize::from(marked), "{name}: {line}");
        assert_eq!(count("<rect class=\"refused\"") > 0, marked, "{name}: {line}");
        let drawn = [
            ("judged", "rect class=\"judged\""),
            ("judged parted", "path class=\"part\""),
            ("read", "rect class=\"read\""),
            ("read parted", "path class=\"part unjudged\""),
            ("refused", "rect class=\"refused\""),
        ];
        for (class, element) in drawn {
            let there = count(&format!("<i class=\"{class}\">")) > 0;
            assert_eq!(there, count(element) > 0, "{name}: {line}: {class}");
        }
        assert_eq!(count("An arrow") > 0, count("class=\"beyond\"") > 0, "{name}: {line}");
        verdict.number
    }

    #[test]
    fn a_page_for_every_example() {
        for example in examples().iter().filter(|example| example.case.job != Job::Index) {
            look(&example.case, &example.name);
        }
    }

    #[test]
    fn a_page_for_drawn_cases() {
        let mut refused = 0;
        for case in 0..2000 {
            let job = [Job::Track, Job::Set][case as usize % 2];
            let number = look(&draw(job, &mut Rng::of_case(11, case)), &format!("drawn {case}"));
            refused += u32::from(number != 0);
        }
        assert!(refused > 500, "{refused} refused");
    }
}
