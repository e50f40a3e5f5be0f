//! The player's steps.

use super::track::{Chunk, Track};

/// Why a step can't be taken.
#[derive(Clone, Copy, Debug, PartialEq, Eq)]
pub enum Stuck {
    /// The track has no fragment of that number, or the plan is at its end.
    NoFragment,
    Timescale,
    NonSync,
    /// A chunk starts elsewhere.
    Clock,
    /// A sample isn't the next bytes inside its chunk's data box.
    Sample,
}

/// The ticks that a player passes, the first start among them, and why it goes no further.
pub struct Passed {
    pub ticks: Vec<u64>,
    pub stuck: Stuck,
}

/// Plays a fragment of each of these tracks in turn.
pub fn play<'a>(plan: impl IntoIterator<Item = &'a Track>) -> Passed {
    let mut player = Player::default();
    let mut ticks = Vec::new();
    for track in plan {
        match player.step(track) {
            Ok([start, end]) if ticks.is_empty() => ticks.extend([start, end]),
            Ok([_, end]) => ticks.push(end),
            Err(stuck) => return Passed { ticks, stuck },
        }
    }
    Passed { ticks, stuck: Stuck::NoFragment }
}

#[derive(Default)]
struct Player {
    fragment: usize,
    clock: Option<u64>,
    timescale: Option<u32>,
}

impl Player {
    /// Takes all chunks of the track's fragment of that number; gives its start and the clock.
    fn step(&mut self, track: &Track) -> Result<[u64; 2], Stuck> {
        let chunks = track.fragment(self.fragment).ok_or(Stuck::NoFragment)?;
        if self.timescale.is_some_and(|timescale| timescale != track.timescale) {
            return Err(Stuck::Timescale);
        }
        if !chunks[0].is_sync() {
            return Err(Stuck::NonSync);
        }
        let mut clock = self.clock;
        for chunk in chunks {
            if clock.is_some_and(|clock| clock != chunk.start) {
                return Err(Stuck::Clock);
            }
            clock = Some(take(chunk)?);
        }
        self.fragment += 1;
        self.clock = clock;
        self.timescale = Some(track.timescale);
        Ok([chunks[0].start, clock.unwrap_or_default()])
    }
}

/// Every sample from the chunk's own data box, one behind the other; gives the chunk's end.
fn take(chunk: &Chunk) -> Result<u64, Stuck> {
    let mut next = chunk.payload.start;
    let mut clock = chunk.start;
    for sample in &chunk.samples {
        if sample.at != next || sample.at + i64::from(sample.size) > chunk.payload.end {
            return Err(Stuck::Sample);
        }
        next += i64::from(sample.size);
        clock += u64::from(sample.duration);
    }
    Ok(clock)
}
