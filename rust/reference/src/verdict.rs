//! What a job answers, and the refusal that the rules hand up on the way there.

/// The five numbers of a verdict; all but `count` and `timescale` are 0 on
/// acceptance, and those two are 0 on refusal.
#[derive(Clone, Copy, Debug, Default, PartialEq, Eq)]
pub struct Verdict {
    pub number: u64,
    pub track: u64,
    pub place: u64,
    /// Fragments; boxes for the index.
    pub count: u64,
    /// 0 for the index.
    pub timescale: u64,
}

/// A broken rule and the place it is reported at.
#[derive(Clone, Copy, Debug, PartialEq, Eq)]
pub struct Refusal {
    pub number: u64,
    pub place: usize,
}

impl Refusal {
    pub fn new(number: u64, place: usize) -> Self {
        Refusal { number, place }
    }

    /// Rule 23: the lent table is too short.
    pub fn no_room() -> Self {
        Refusal::new(23, 0)
    }

    pub fn of_track(self, track: usize) -> Verdict {
        Verdict {
            number: self.number,
            track: track as u64,
            place: self.place as u64,
            ..Verdict::default()
        }
    }
}

/// The two jobs over one slice name no track.
impl From<Refusal> for Verdict {
    fn from(refusal: Refusal) -> Verdict {
        refusal.of_track(0)
    }
}

impl Verdict {
    pub(crate) fn accepted(count: usize, timescale: u32) -> Verdict {
        Verdict { count: count as u64, timescale: u64::from(timescale), ..Verdict::default() }
    }
}
