//! Who judges: the reference, the archive through its wrapper, and the one before it.

#[cfg(before)]
use crate::before;
use maker::cases::Job;
use reference::{Pieces, PiecesAnswer, Verdict};

#[derive(Clone, Copy)]
pub struct Judge {
    pub name: &'static str,
    judge: fn(Job, &[u8], &mut [u64]) -> Verdict,
    form: fn() -> Box<dyn TakesPieces>,
}

impl Judge {
    /// The one that others are compared with.
    pub const REFERENCE: Judge =
        Judge { name: "reference", judge: by_reference, form: || Box::new(Pieces::new()) };

    #[cfg(linked)]
    pub fn archive() -> Result<Judge, String> {
        Ok(Judge {
            name: "archive",
            judge: by_archive,
            form: || Box::<flangemint::Pieces>::default(),
        })
    }

    #[cfg(not(linked))]
    pub fn archive() -> Result<Judge, String> {
        Err("no archive is linked, and the build of the wrapper said why: without it there are \
             `trials pipe` and `trials self`"
            .to_string())
    }

    /// The archive that `tools/versus` links beside.
    #[cfg(before)]
    pub fn before() -> Result<Judge, String> {
        Ok(Judge {
            name: "archive before",
            judge: before::judge,
            form: || Box::<before::Pieces>::default(),
        })
    }

    #[cfg(not(before))]
    pub fn before() -> Result<Judge, String> {
        Err("no archive to compare with is linked: `make versus BEFORE=ARCHIVE` does it"
            .to_string())
    }

    pub fn judge(self, job: Job, bytes: &[u8], table: &mut [u64]) -> Verdict {
        (self.judge)(job, bytes, table)
    }

    /// A form that took no piece yet.
    pub fn form(self) -> Box<dyn TakesPieces> {
        (self.form)()
    }
}

fn by_reference(job: Job, bytes: &[u8], table: &mut [u64]) -> Verdict {
    match job {
        Job::Index => reference::index(bytes, table),
        Job::Track => reference::track(bytes, table),
        Job::Set => reference::set(bytes, table),
    }
}

#[cfg(linked)]
fn by_archive(job: Job, bytes: &[u8], table: &mut [u64]) -> Verdict {
    let verdict = match job {
        Job::Index => flangemint::check_index(bytes, table),
        Job::Track => flangemint::check_track(bytes, table),
        Job::Set => flangemint::check_set(bytes, table),
    };
    verdict_of(verdict)
}

#[cfg(linked)]
fn verdict_of(verdict: flangemint::Verdict) -> Verdict {
    let flangemint::Verdict { number, track, place, count, timescale } = verdict;
    Verdict { number, track, place, count, timescale }
}

/// A form that takes pieces.
pub trait TakesPieces: Send {
    fn feed(&mut self, piece: &[u8]);
    fn finish(&self) -> PiecesAnswer;

    /// Feeds pieces of that many bytes.
    fn steps(&mut self, bytes: &[u8], step: usize) -> PiecesAnswer {
        bytes.chunks(step).for_each(|piece| self.feed(piece));
        self.finish()
    }

    /// Feeds all pieces; the answer before the piece of that number, and at the end.
    fn pieces(&mut self, pieces: &[&[u8]], asked: usize) -> [PiecesAnswer; 2] {
        let (before, after) = pieces.split_at(asked);
        [before, after].map(|pieces| {
            pieces.iter().for_each(|piece| self.feed(piece));
            self.finish()
        })
    }
}

impl TakesPieces for Pieces {
    fn feed(&mut self, piece: &[u8]) {
        Pieces::feed(self, piece);
    }

    fn finish(&self) -> PiecesAnswer {
        Pieces::finish(self)
    }
}

#[cfg(linked)]
impl TakesPieces for flangemint::Pieces {
    fn feed(&mut self, piece: &[u8]) {
        flangemint::Pieces::feed(self, piece);
    }

    fn finish(&self) -> PiecesAnswer {
        let flangemint::Answer { verdict, first, last } = flangemint::Pieces::finish(self);
        PiecesAnswer { verdict: verdict_of(verdict), first, last }
    }
}
