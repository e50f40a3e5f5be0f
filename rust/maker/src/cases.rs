//! A case: a job, its bytes, and what is known of the right answer.

#[derive(Clone, Copy, Debug, PartialEq, Eq)]
pub enum Job {
    Index,
    Track,
    Set,
}

impl Job {
    pub const ALL: [Job; 3] = [Job::Index, Job::Track, Job::Set];

    pub fn name(self) -> &'static str {
        ["index", "track", "set"][self as usize]
    }
}

/// A verdict, and what an ample table begins with after it.
#[derive(Clone, Debug, Default, PartialEq, Eq)]
pub struct Answer {
    pub number: u64,
    pub track: u64,
    pub place: u64,
    pub count: u64,
    pub timescale: u64,
    pub table: Vec<u64>,
}

impl Answer {
    pub fn refused(number: u64, place: u64) -> Answer {
        Answer { number, place, ..Answer::default() }
    }

    pub fn of_track(self, track: usize) -> Answer {
        Answer { track: track as u64, ..self }
    }

    /// A track, or a set of tracks, with these boundaries.
    pub fn accepted(timescale: u32, boundaries: Vec<u64>) -> Answer {
        Answer {
            count: boundaries.len() as u64 - 1,
            timescale: u64::from(timescale),
            table: boundaries,
            ..Answer::default()
        }
    }

    /// An index with these rows.
    pub fn listed(rows: Vec<[u64; 4]>) -> Answer {
        Answer { count: rows.len() as u64, table: rows.concat(), ..Answer::default() }
    }
}

#[derive(Clone, Debug)]
pub struct Case {
    pub job: Job,
    pub bytes: Vec<u8>,
    /// The answer with an ample table, where the way the case was made decides it.
    pub expected: Option<Answer>,
}
