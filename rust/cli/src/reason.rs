//! Why a set was refused, in facts: file, box, chunk, time, what stands there, what was
//! expected. All of it is computed from the bytes and the proved jobs after the verdict is there,
//! and it never changes the verdict.

use crate::bundle::MARK;
use crate::chunks::{chunks, Chunk};
use crate::facts::{Set, Track};
use crate::found::{self, Contrast};
use crate::judge::{self, Judged};
use crate::place::{spot, Spot};
use crate::refusals::{section, Section};
use crate::stream::Streamed;
use flangemint::Verdict;

pub struct Reason {
    /// The file of the refused track.
    pub file: String,
    pub spot: Spot,
    /// Where the place is the end of the track.
    pub at_end: bool,
    pub chunk: Option<Part>,
    /// That of the chunk; `None` where it can't be told which it is.
    pub fragment: Option<Part>,
    /// Whether the chunk is known to be the first of its fragment.
    pub begins: bool,
    pub contrast: Option<Contrast>,
    pub section: Option<&'static Section>,
    pub hint: Option<&'static str>,
}

/// A chunk or a fragment, counted from 0.
#[derive(Clone, Copy, Debug, PartialEq, Eq)]
pub struct Part {
    pub number: u64,
    pub start: Option<Start>,
}

/// Where a chunk or a fragment starts: at the end of the one before, the first at its own `tfdt`.
#[derive(Clone, Copy, Debug, PartialEq, Eq)]
pub struct Start {
    pub ticks: u64,
    pub timescale: u64,
}

/// The numbers of a chunk whose `tfdt` is there and well formed: rules 14 and 15 hold.
const AFTER_BODIES: u64 = 16;

const BUNDLE_HINT: &str = "the file begins like a bundle: `flangemint check --bundle` judges those";

const NOT_KEPT: &str =
    "nothing of the track is kept: `flangemint check` names the box and what stands there";

const NO_SUCH_LIMIT: &str =
    "`flangemint check` has no such limit: it holds the whole track in memory";

impl Reason {
    /// The reason of a set's refusal; `None` if it is accepted.
    pub fn of_set(set: &Set) -> Option<Reason> {
        let verdict = &set.judged.verdict;
        if verdict.is_accepted() {
            return None;
        }
        let track = match verdict.number {
            // The bundle as a whole is refused.
            24 => None,
            1 if set.names.len() != 1 => None,
            _ => set.track(verdict.track as usize),
        };
        let Some(track) = track else {
            return Some(Reason {
                file: set.files.join(", "),
                contrast: match verdict.number {
                    24 => found::in_bundle(set.bundle.bytes(), verdict.place, verdict.track),
                    _ => found::too_long(),
                },
                ..Reason::empty(verdict)
            });
        };
        Some(match verdict.number {
            25..=28 => {
                let contrast =
                    set.track(0).and_then(|zero| found::beside(verdict.number, &track, &zero));
                Reason { contrast, ..Reason::of_place(&track, verdict) }
            }
            _ => Reason::of_place(&track, verdict),
        })
    }

    /// The reason of a track's own refusal; `None` if it is accepted.
    pub fn of_track(track: &Track) -> Option<Reason> {
        let verdict = &track.alone.verdict;
        (!verdict.is_accepted()).then(|| Reason::of_place(track, verdict))
    }

    /// The reason of a stream's refusal, as far as it can be told without the bytes; `None` if it
    /// is accepted.
    pub fn of_stream(streamed: &Streamed) -> Option<Reason> {
        let verdict = &streamed.answer.verdict;
        if verdict.is_accepted() {
            return None;
        }
        Some(Reason {
            file: streamed.name.clone(),
            at_end: verdict.place == streamed.bytes,
            contrast: match verdict.number {
                1 => found::too_long(),
                29 => found::large_box(),
                _ => None,
            },
            hint: match verdict.number {
                _ if streamed.like_bundle => Some(BUNDLE_HINT),
                1 => None,
                29 => Some(NO_SUCH_LIMIT),
                _ => Some(NOT_KEPT),
            },
            ..Reason::empty(verdict)
        })
    }

    fn empty(verdict: &Verdict) -> Reason {
        Reason {
            file: String::new(),
            spot: Spot::default(),
            at_end: false,
            chunk: None,
            fragment: None,
            begins: false,
            contrast: None,
            section: section(verdict.number),
            hint: None,
        }
    }

    fn of_place(track: &Track, verdict: &Verdict) -> Reason {
        // 1 and 23 have no place: their 0 is no box.
        if matches!(verdict.number, 1 | 23) {
            let contrast = found::in_track(verdict.number, track, 0, None);
            return Reason { file: track.name.to_owned(), contrast, ..Reason::empty(verdict) };
        }
        let spot = spot(track.view(), verdict.place);
        let before = spot.chunk.and_then(|(_, moof)| front(track, moof));
        let end = before.as_ref().and_then(|front| front.boundaries.last().copied());
        let told = spot.chunk.and_then(|(number, _)| chunks(track).get(number as usize).copied());
        let (chunk, fragment) = told.map_or((None, None), |one| {
            let (chunk, fragment) = parts(track, verdict, one, before.as_ref());
            (Some(chunk), fragment)
        });
        Reason {
            file: track.name.to_owned(),
            at_end: verdict.place == track.bytes.len() as u64,
            chunk,
            fragment,
            begins: told.is_some_and(|one| one.begins),
            contrast: found::in_track(verdict.number, track, verdict.place, end),
            hint: track.bytes.starts_with(&MARK).then_some(BUNDLE_HINT),
            spot,
            ..Reason::empty(verdict)
        }
    }
}

/// What the track job says of the chunks before a `moof`; `None` where it refuses them.
fn front(track: &Track, moof: u64) -> Option<Judged> {
    let before = judge::track(track.bytes.get(..usize::try_from(moof).ok()?)?);
    before.verdict.is_accepted().then_some(before)
}

/// A chunk and its fragment. `before` is the front that it follows.
fn parts(
    track: &Track,
    verdict: &Verdict,
    Chunk { number, moof, fragment, .. }: Chunk,
    before: Option<&Judged>,
) -> (Part, Option<Part>) {
    let first = || (verdict.number >= AFTER_BODIES).then(|| own_start(track, moof)).flatten();
    // The front's boundaries are the starts of its fragments, and where the chunk starts.
    let start = |nth: usize| {
        let Some(before) = before else { return first().filter(|_| number == 0) };
        let ticks = *before.boundaries.get(nth)?;
        Some(Start { ticks, timescale: before.verdict.timescale })
    };
    let last = before.map_or(0, |before| before.boundaries.len() - 1);
    let chunk = Part { number, start: start(last) };
    (chunk, fragment.map(|number| Part { number, start: start(number as usize) }))
}

/// Where the `tfdt` of a chunk says that it starts.
fn own_start(track: &Track, moof: u64) -> Option<Start> {
    let view = track.view();
    let traf = view.child(view.at(moof), b"traf")?;
    let tfdt = view.child(Some(traf), b"tfdt")?;
    Some(Start { ticks: view.body(tfdt).decode_time()?, timescale: found::timescale(view)? })
}

#[cfg(test)]
mod tests {
    use super::*;
    use crate::bundle::Bundle;
    use crate::{json, words};
    use maker::bundle::record;
    use maker::cases::{Case, Job};
    use maker::examples::examples;
    use maker::mix::draw;
    use maker::rng::Rng;
    use std::collections::BTreeMap;

    /// A case judged as a file or as a bundle.
    fn judged(case: &Case) -> Set {
        match case.job {
            Job::Set => Set::of_bundle("set".to_owned(), Bundle::packed(case.bytes.clone())),
            _ => {
                let bundle = Bundle::packed(record(&case.bytes));
                Set::of_files(vec!["track".to_owned()], bundle)
            }
        }
    }

    /// What must be so of every reason; answers the number.
    fn look(case: &Case, name: &str) -> u64 {
        let set = judged(case);
        let verdict = set.judged.verdict;
        if let Some(expected) = &case.expected {
            assert_eq!(
                (verdict.number, verdict.place),
                (expected.number, expected.place),
                "{name}"
            );
        }
        let reason = Reason::of_set(&set);
        let text = words::about(&set, reason.as_ref(), &[], false);
        let object = json::about(&set, reason.as_ref(), true);
        assert_eq!(text.lines().next().unwrap(), words::line(&verdict, set.names.len()), "{name}");
        assert_eq!(object["number"], verdict.number, "{name}");
        assert_eq!(reason.is_none(), verdict.is_accepted(), "{name}");
        if let Some(reason) = reason {
            facts(&reason, &verdict, name);
        }
        verdict.number
    }

    fn facts(reason: &Reason, verdict: &Verdict, name: &str) {
        let Verdict { number, place, .. } = *verdict;
        assert!(reason.section.is_some(), "{name}");
        let named = reason.spot.named.as_ref();
        assert!(named.is_none_or(|(one, _)| one.offset == place), "{name}");
        match number {
            3 | 4 | 7..=22 | 25 | 26 | 28 => {
                assert!(named.is_some(), "{name}: {number} without a box")
            }
            6 | 27 => assert!(named.is_some() || reason.at_end, "{name}: {number} without a box"),
            _ => (),
        }
        if matches!(number, 14..=22 | 28) {
            let chunk = reason.chunk.unwrap_or_else(|| panic!("{name}: no chunk"));
            assert!(number < AFTER_BODIES || chunk.start.is_some(), "{name}: no time");
            // Boxes that are misshapen, or no sample, don't tell to which fragment it belongs.
            match reason.fragment {
                None => assert!(number <= 18 && chunk.number > 0, "{name}: {number}"),
                Some(fragment) => {
                    assert!(fragment.number <= chunk.number, "{name}");
                    let ticks = |part: Part| part.start.map(|start| start.ticks);
                    assert!(
                        ticks(fragment) <= ticks(chunk),
                        "{name}: {number} {fragment:?} {chunk:?}"
                    );
                    let same = ticks(fragment) == ticks(chunk);
                    assert!(chunk.start.is_none() || same == reason.begins, "{name}: {number}");
                    assert!(number != 28 || reason.begins, "{name}");
                }
            }
        }
        if let Some((_, path)) = named {
            let expected = match number {
                10 | 26 => "mdhd",
                12 | 25 => "hdlr",
                17 => "traf/tfhd",
                18 => "traf",
                19 => "traf/tfdt",
                9 => "ftyp",
                _ => "",
            };
            assert!(
                path.split('[').next().unwrap().ends_with(expected) || path.ends_with(expected),
                "{name}: {path}"
            );
        }
        let contrast = reason
            .contrast
            .as_ref()
            .unwrap_or_else(|| panic!("{name}: {number} without a contrast"));
        if matches!(number, 3 | 4 | 11 | 13 | 17 | 19 | 20 | 22 | 26..=28) {
            assert_ne!(contrast.found, contrast.expected, "{name}");
            assert_ne!(contrast.found.number, contrast.expected.number, "{name}");
        }
        let (found, expected) = (&contrast.found, &contrast.expected);
        match number {
            // Of the right size, so of a wrong version.
            15 if found.number == expected.number => {
                let version = found.words.rsplit(' ').next().unwrap();
                let (_, allowed) = expected.words.rsplit_once("version ").unwrap();
                assert!(
                    !allowed.split(' ').any(|one| one == version),
                    "{name}: {found:?} {expected:?}"
                );
            }
            18 => assert!(!(1..=65_536).contains(&found.number.unwrap()), "{name}: {found:?}"),
            21 => assert_ne!(found.number.unwrap() & 0x1_0000, 0, "{name}: {found:?}"),
            25 => assert!(!expected.words.starts_with(&found.words), "{name}: {found:?}"),
            12 => assert!(
                !expected.words.contains(&found.words["handler ".len()..]),
                "{name}: {found:?}"
            ),
            _ => (),
        }
        // The side of the bound on which the rule is broken.
        if let (3 | 4 | 20 | 24, Some(found), Some(expected)) =
            (number, found.number, expected.number)
        {
            assert_eq!(found < expected, number == 3, "{name}: {found} {expected}");
        }
    }

    #[test]
    fn every_example_has_its_reason() {
        let mut seen: BTreeMap<u64, u32> = BTreeMap::new();
        for example in examples().iter().filter(|example| example.case.job != Job::Index) {
            *seen.entry(look(&example.case, &example.name)).or_default() += 1;
        }
        let missing: Vec<u64> = (0..=28).filter(|number| !seen.contains_key(number)).collect();
        assert_eq!(missing, [1, 23], "the command lends enough, and no example is a GiB long");
    }

    #[test]
    fn drawn_cases_have_their_reason() {
        let mut refused = 0;
        for case in 0..3000 {
            let job = [Job::Track, Job::Set][case as usize % 2];
            let number = look(&draw(job, &mut Rng::of_case(7, case)), &format!("drawn {case}"));
            refused += u32::from(number != 0);
        }
        assert!(refused > 1000, "{refused} refused");
    }
}
