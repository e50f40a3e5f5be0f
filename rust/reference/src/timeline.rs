//! The boundaries of one track, and the room that a lent table needs for them: rule 23.

use crate::verdict::Refusal;

/// Boundaries that there is room for at once; many tracks have few.
const FEW: usize = 31;

/// The boundaries of one track, kept until it is known that they may be written.
pub struct Timeline {
    few: [u64; FEW],
    /// Those beyond: nothing is allocated before the first.
    more: Vec<u64>,
    len: usize,
}

impl Timeline {
    pub fn new() -> Self {
        Timeline { few: [0; FEW], more: Vec::new(), len: 0 }
    }

    pub fn push(&mut self, tick: u64) {
        match self.few.get_mut(self.len) {
            Some(next) => *next = tick,
            None => self.more.push(tick),
        }
        self.len += 1;
    }

    pub fn ticks(&self) -> impl Iterator<Item = &u64> {
        self.few.iter().chain(&self.more).take(self.len)
    }

    /// Writes the boundaries to the start of the lent table, or rule 23.
    pub fn write(&self, table: &mut [u64]) -> Result<(), Refusal> {
        let room = table.get_mut(..self.len).ok_or(Refusal::no_room())?;
        room.iter_mut().zip(self.ticks()).for_each(|(place, tick)| *place = *tick);
        Ok(())
    }
}
