//! The boxes of a `moof`: framed and sorted, and of each run what it says by itself.

use crate::counts::Tally;
use crate::framing::{Allowance, Boxes, Framed};
use crate::kinds::*;
use crate::run::Run;
use crate::verdict::Refusal;

/// All boxes that rule 14 counts, whatever `traf` they were met in: a second
/// `traf` is refused before what they hold is counted.
#[derive(Default)]
pub struct Moof<'a> {
    pub at: usize,
    pub size: usize,
    pub mfhd: Tally<'a>,
    pub traf: Tally<'a>,
    pub tfhd: Tally<'a>,
    pub tfdt: Tally<'a>,
    pub runs: Runs<'a>,
}

impl<'a> Moof<'a> {
    /// Frames what the `moof` holds, and sorts it; gives the allowance that is left. Out of line,
    /// since the walk along the top level has use for all registers.
    #[inline(never)]
    pub fn read(
        &mut self,
        moof: Framed<'a>,
        mut allowance: Allowance,
    ) -> Result<Allowance, Refusal> {
        *self = Moof { at: moof.at, size: moof.size(), ..Moof::default() };
        let mut boxes = moof.inside();
        while let Some(framed) = boxes.next(&mut allowance)? {
            match framed.kind {
                MFHD => self.mfhd.add(&framed),
                TRAF => allowance = self.read_traf(framed, allowance)?,
                _ => (),
            }
        }
        Ok(allowance)
    }

    /// Out of line for the same reason.
    #[inline(never)]
    fn read_traf(
        &mut self,
        traf: Framed<'a>,
        mut allowance: Allowance,
    ) -> Result<Allowance, Refusal> {
        self.traf.add(&traf);
        let mut boxes = traf.inside();
        while let Some(framed) = boxes.next(&mut allowance)? {
            match framed.kind {
                TFHD => self.tfhd.add(&framed),
                TFDT => self.tfdt.add(&framed),
                TRUN => self.runs.add(&framed, &boxes),
                _ => (),
            }
        }
        Ok(allowance)
    }
}

/// The runs of a chunk.
#[derive(Default)]
pub struct Runs<'a> {
    pub first_at: Option<usize>,
    /// The first that breaks rule 15.
    pub bad_body: Option<usize>,
    /// The first that breaks rule 16.
    pub flags_twice: Option<usize>,
    pub samples: u64,
    first: Option<Run<'a>>,
    /// How many follow the first, and the boxes that they are among.
    later: usize,
    behind: Boxes<'a>,
}

impl<'a> Runs<'a> {
    /// Takes the next run of the `traf`; `behind` are the boxes after it.
    #[inline(always)]
    fn add(&mut self, trun: &Framed<'a>, behind: &Boxes<'a>) {
        let run = Run::parse(trun.body);
        match &run {
            None => {
                self.bad_body.get_or_insert(trun.at);
            }
            Some(run) => {
                self.samples += u64::from(run.count);
                if run.has_flags_twice() {
                    self.flags_twice.get_or_insert(trun.at);
                }
            }
        }
        if self.first_at.is_none() {
            self.first_at = Some(trun.at);
            self.first = run;
            self.behind = *behind;
        } else {
            self.later += 1;
        }
    }

    /// Shows each run with its place, in byte order, where rule 15 holds. Only those after the
    /// first are read again.
    #[inline(always)]
    pub fn each(&self, mut visit: impl FnMut(usize, &Run<'a>)) {
        if let (Some(at), Some(first)) = (self.first_at, &self.first) {
            visit(at, first);
        }
        let mut boxes = self.behind;
        let mut later = self.later;
        while later > 0 {
            let Some(framed) = boxes.next_again() else { break };
            if framed.kind == TRUN {
                later -= 1;
                if let Some(run) = Run::parse(framed.body) {
                    visit(framed.at, &run);
                }
            }
        }
    }
}
