//! `trials player`: the player of document 01, as request 2 amends it, over the tracks of drawn
//! sets. On an accepted set every plan must run and pass the boundaries; where a set is refused
//! for what a player meets, some plan must show it.

mod steps;
mod track;

use crate::drawn::{Drawn, AMPLE};
use crate::judge::Judge;
use maker::bundle::MARK;
use maker::cases::{Case, Job};
use maker::rng::Rng;
use reference::Verdict;
use steps::{play, Passed, Stuck};
use track::Track;

/// So that plans are not drawn from the stream of a case.
const STREAM: u64 = 0x706C_6179_6572;
/// Plans for each accepted set.
const PLANS: usize = 4;

/// How many sets showed what.
#[derive(Default)]
struct Shown {
    accepted: u64,
    /// Of these, with a fragment of several chunks.
    in_chunks: u64,
    refused: u64,
}

/// Tries cases `from` to `from + cases` of the job `set`; others than these say nothing here.
pub fn run(tried: Judge, seed: u64, from: u64, cases: u64) -> Result<(), String> {
    println!("the player beside the {}, seed {seed}, {cases} cases from case {from}", tried.name);
    let mut shown = Shown::default();
    for number in from..from.saturating_add(cases) {
        let drawn = Drawn::make(Job::Set, seed, number);
        let mut rng = Rng::of_case(seed ^ STREAM, number);
        one(tried, &drawn.case, &mut shown, &mut rng)
            .map_err(|difference| drawn.report(&difference))?;
    }
    let Shown { accepted, in_chunks, refused } = shown;
    println!("{accepted} accepted sets, {in_chunks} with several chunks a fragment: all plans run");
    println!("{refused} sets refused under 19, 21 or 26 to 28: a plan shows it");
    Ok(())
}

fn one(tried: Judge, case: &Case, shown: &mut Shown, rng: &mut Rng) -> Result<(), String> {
    let tracks = records(&case.bytes);
    let mut table = vec![0; AMPLE];
    let verdict = tried.judge(Job::Set, &case.bytes, &mut table);
    let Verdict { number, track, place, count, .. } = verdict;
    let refused = track as usize;
    match number {
        0 => {
            let tracks: Vec<Track> = tracks.into_iter().map(whole).collect();
            let boundaries = &table[..=count as usize];
            every_plan(&tracks, boundaries, rng)?;
            shown.accepted += 1;
            shown.in_chunks += u64::from(tracks.iter().any(Track::has_long_fragments));
        }
        19 | 21 => {
            // Later chunks may break any rule, but the player is stuck before.
            let track = Track::read(tracks[refused], place);
            let right = if number == 19 { Stuck::Clock } else { Stuck::NonSync };
            let Passed { stuck, .. } = alone(&track);
            if stuck != right {
                return Err(format!("{verdict:?}, but a player is stuck for {stuck:?}"));
            }
            shown.refused += 1;
        }
        26..=28 => {
            let [first, other] = [tracks[0], tracks[refused]].map(whole);
            told_apart(number, &first, &other)
                .map_err(|said| format!("{verdict:?}, but {said}"))?;
            shown.refused += 1;
        }
        _ => (),
    }
    Ok(())
}

/// The tracks of a bundle, as far as it goes.
fn records(bundle: &[u8]) -> Vec<&[u8]> {
    let mut tracks = Vec::new();
    let mut rest = bundle;
    while let [one, two, a, b, c, d, behind @ ..] = rest {
        let length = u32::from_be_bytes([*a, *b, *c, *d]) as usize;
        let Some((track, after)) = behind.split_at_checked(length) else { break };
        if [*one, *two] != MARK {
            break;
        }
        tracks.push(track);
        rest = after;
    }
    tracks
}

/// A good track.
fn whole(track: &[u8]) -> Track {
    Track::read(track, u64::MAX)
}

/// What a player passes that stays on one track.
fn alone(track: &Track) -> Passed {
    play(std::iter::repeat(track))
}

/// Any plan passes the boundaries, and is stuck only where no fragment is left.
fn every_plan(tracks: &[Track], boundaries: &[u64], rng: &mut Rng) -> Result<(), String> {
    for _ in 0..PLANS {
        let plan: Vec<usize> = boundaries.iter().map(|_| rng.index(tracks.len())).collect();
        let Passed { ticks, stuck } = play(plan.iter().map(|choice| &tracks[*choice]));
        if ticks != boundaries || stuck != Stuck::NoFragment {
            return Err(format!(
                "the plan {plan:?} passes {ticks:?} and is stuck for {stuck:?}, \
                 accepted with {boundaries:?}"
            ));
        }
    }
    Ok(())
}

/// Two plans that end otherwise: each stays on one track, or the second changes over to it.
fn told_apart(number: u64, first: &Track, other: &Track) -> Result<(), String> {
    let [one, two] = [first, other].map(alone);
    match number {
        26 => match play([first, other]).stuck {
            Stuck::Timescale => Ok(()),
            Stuck::NoFragment if two.ticks.len() == 2 => Ok(()),
            stuck => Err(format!("a change is stuck for {stuck:?}")),
        },
        27 if one.ticks.len() != two.ticks.len() => Ok(()),
        28 if one.ticks.len() == two.ticks.len() && one.ticks != two.ticks => Ok(()),
        _ => Err(format!("alone they pass {:?} and {:?}", one.ticks, two.ticks)),
    }
}

#[cfg(test)]
mod tests {
    use super::*;
    use maker::track::{Fill, Track as Made, NON_SYNC};

    fn read(made: &Made) -> Track {
        whole(&maker::node::bytes(&made.boxes(&mut Fill::Zeros)))
    }

    fn u_but(change: impl FnOnce(&mut Made)) -> Passed {
        let mut made = Made::example_u();
        change(&mut made);
        alone(&read(&made))
    }

    #[test]
    fn a_short_run() {
        assert_eq!(run(Judge::archive().unwrap_or(Judge::REFERENCE), 2, 0, 300), Ok(()));
    }

    /// U by itself, and what each fault of its chunks comes to.
    #[test]
    fn faults_of_chunks() {
        let u = u_but(|_| ());
        assert_eq!((u.ticks, u.stuck), (vec![0, 360_000, 540_000], Stuck::NoFragment));
        // The clock is compared in the first step too, from its second chunk on.
        let late = u_but(|u| u.chunks[1].start += 1);
        assert_eq!((late.ticks, late.stuck), (vec![], Stuck::Clock));
        let late = u_but(|u| u.chunks[2].start += 1);
        assert_eq!((late.ticks, late.stuck), (vec![0, 360_000], Stuck::Clock));
        let non_sync = u_but(|u| {
            u.chunks[0].runs[0].flags |= 0x4;
            u.chunks[0].runs[0].first_sample_flags = NON_SYNC;
        });
        assert_eq!((non_sync.ticks, non_sync.stuck), (vec![], Stuck::NonSync));
        for error in [-1, 1, -100, 138] {
            let astray = u_but(|u| u.chunks[1].runs[0].offset_error = error);
            assert_eq!((astray.ticks, astray.stuck), (vec![], Stuck::Sample));
        }
        let too_long = u_but(|u| u.chunks[2].runs[0].offset_error = 1);
        assert_eq!((too_long.ticks, too_long.stuck), (vec![0, 360_000], Stuck::Sample));
    }
}
