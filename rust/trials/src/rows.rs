//! The rows of `trials bench` and `trials versus`: what they are called, and how they are made.

use crate::drawn::AMPLE;
use crate::judge::Judge;
use crate::run::compare;
use crate::states::State;
use crate::tracks::{bundle, chunks_in, crowded, large, many_runs, tables, unusual};
use crate::tracks::{Dress, Shape, Together, APART};
use maker::cases::Job;
use maker::node::{self, Node};
use std::cell::LazyCell;
use Dress::{Backwards, BoxBehind, EmptyRun, LongHeaders, TwoRuns};
use Shape::{FewLarge, ManyChunks, ManySmall};
use Track::{Crowded, Large, ManyRuns, Tables, Unusual};

/// A good track.
#[derive(Clone, Copy)]
enum Track {
    Large(usize, Shape, Together),
    /// Of so many boxes.
    Crowded(usize),
    Unusual(Dress, Together),
    /// In so many boxes.
    ManyRuns(usize),
    Tables(usize),
}

impl Track {
    fn boxes(self) -> Vec<Node> {
        match self {
            Large(bytes, shape, together) => large(bytes, shape, together),
            Crowded(boxes) => crowded(boxes),
            Unusual(dress, together) => unusual(BOXES, dress, together),
            ManyRuns(boxes) => many_runs(boxes),
            Tables(fields) => tables(fields),
        }
    }

    /// Whether the track in this state is the good one again: its runs carry no durations.
    fn repeats_good(self, state: State) -> bool {
        matches!((self, state), (Tables(1), State::OtherEnd))
    }
}

const KIB: usize = 1 << 10;
const MIB: usize = 1 << 20;
/// Most rows of many boxes have so many.
const BOXES: usize = 4096;
const MANY: Shape = ManyChunks(BOXES);
const BY_2: Together = Together(2);
const BY_40: Together = Together(40);
const ALL: Together = Together(chunks_in(BOXES));

/// Each track good and damaged, by itself and behind the good one in a set; what would repeat the
/// good one is left out.
const TRACKS: [(&str, Track); 32] = [
    ("10 KiB, few large", Large(10 * KIB, FewLarge, APART)),
    ("10 KiB, many small", Large(10 * KIB, ManySmall, APART)),
    ("1 MiB, few large", Large(MIB, FewLarge, APART)),
    ("1 MiB, many small", Large(MIB, ManySmall, APART)),
    ("100 MiB, few large", Large(100 * MIB, FewLarge, APART)),
    ("100 MiB, many small", Large(100 * MIB, ManySmall, APART)),
    ("500 MiB, few large", Large(500 * MIB, FewLarge, APART)),
    ("500 MiB, many small", Large(500 * MIB, ManySmall, APART)),
    ("4,096 boxes", Crowded(BOXES)),
    ("16,384 boxes", Crowded(4 * BOXES)),
    ("65,536 boxes", Crowded(16 * BOXES)),
    ("582 fragments", Large(0, MANY, APART)),
    ("2,337 fragments", Large(0, ManyChunks(4 * BOXES), APART)),
    ("9,359 fragments", Large(0, ManyChunks(16 * BOXES), APART)),
    ("509 fragments, a box behind", Unusual(BoxBehind, APART)),
    ("509 fragments of two runs", Unusual(TwoRuns, APART)),
    ("582 fragments, long headers", Unusual(LongHeaders, APART)),
    ("582 fragments, backwards", Unusual(Backwards, APART)),
    ("4,070 runs", ManyRuns(BOXES)),
    ("65,510 runs", ManyRuns(16 * BOXES)),
    // The same chunks, of the same sizes: only first-sample flags differ.
    ("582 chunks by 2", Large(0, MANY, BY_2)),
    ("582 chunks by 40", Large(0, MANY, BY_40)),
    ("582 chunks in one fragment", Large(0, MANY, ALL)),
    ("509 chunks of two runs by 40", Unusual(TwoRuns, BY_40)),
    ("509 fragments, an empty run first", Unusual(EmptyRun, APART)),
    ("509 chunks by 40, an empty run first", Unusual(EmptyRun, BY_40)),
    ("582 chunks by 40, backwards", Unusual(Backwards, BY_40)),
    ("100 MiB, few large, by 40", Large(100 * MIB, FewLarge, BY_40)),
    ("1 MiB, one field a sample", Tables(1)),
    ("1 MiB, two fields a sample", Tables(2)),
    ("1 MiB, three fields a sample", Tables(3)),
    ("1 MiB, four fields a sample", Tables(4)),
];

/// So many good tracks in a set, and nothing else of them.
const SETS: [(&str, usize, Track); 1] =
    [("16 tracks of 10 KiB", 16, Large(10 * KIB, FewLarge, APART))];

/// A job on some bytes, with the name of its row.
pub struct Input {
    pub name: String,
    pub job: Job,
    pub bytes: Vec<u8>,
}

impl Input {
    /// The number that a judge and the reference agree on: only what agrees is worth comparing
    /// for speed.
    pub fn agreed(&self, tried: Judge) -> Result<u64, String> {
        let verdict = compare(tried, self.job, &self.bytes, &mut vec![0; AMPLE]);
        verdict.map(|v| v.number).map_err(|difference| format!("{}: {difference}", self.name))
    }
}

/// Shows the rows whose names are wanted, one after the other. No other is made, and none is kept.
/// Gives how many there were.
pub fn each(
    mut wanted: impl FnMut(&str) -> bool,
    mut show: impl FnMut(Input) -> Result<(), String>,
) -> Result<usize, String> {
    let mut shown = 0;
    let mut see = |job: Job, name: &str, state: State, boxes: &dyn Fn() -> Vec<Node>| {
        let name = format!("{} {name}, {}", job.name(), state.name());
        if !wanted(&name) {
            return Ok(());
        }
        shown += 1;
        let bytes = node::bytes(&boxes());
        show(Input { name, job, bytes })
    };
    for (name, track) in TRACKS {
        let good = LazyCell::new(|| track.boxes());
        for state in State::ALL.into_iter().filter(|state| !track.repeats_good(*state)) {
            let alone = || state.applied(&good);
            see(Job::Index, name, state, &alone)?;
            see(Job::Track, name, state, &alone)?;
            see(Job::Set, name, state, &|| bundle(&[&good, &alone()]))?;
        }
    }
    for (name, count, track) in SETS {
        see(Job::Set, name, State::Good, &|| bundle(&vec![&track.boxes()[..]; count]))?;
    }
    Ok(shown)
}

/// An error where no row's name contains the text.
pub fn known(text: &str) -> Result<(), String> {
    let mut found = false;
    let look = |name: &str| {
        found |= name.contains(text);
        false
    };
    each(look, |_| Ok(()))?;
    found.then_some(()).ok_or(format!("no row's name contains '{text}'"))
}

#[cfg(test)]
mod tests {
    use super::*;
    use std::collections::HashSet;

    /// The number of each state, in order, by itself and in a set; no two rows of a job are the same.
    #[test]
    fn tables_and_the_set_of_sixteen() {
        let mut numbers = Vec::new();
        let mut seen = HashSet::new();
        let shown = each(
            |name| name.contains("a sample, ") || name.contains("16 tracks"),
            |input| {
                numbers.push((input.name.clone(), input.agreed(Judge::REFERENCE)?));
                assert!(seen.insert((input.job.name(), input.bytes)), "{}", input.name);
                Ok(())
            },
        );
        assert_eq!(shown, Ok((4 * 4 - 1) * 3 + 1));
        for (name, number) in numbers {
            let job = name.split(' ').next();
            let right = match (job, name.rsplit(", ").next()) {
                (Some("set"), Some("other end")) => 28,
                (Some("track" | "set"), Some("spare byte")) => 22,
                (_, Some("stray byte")) => 2,
                _ => 0,
            };
            assert_eq!(number, right, "{name}");
        }
    }
}
