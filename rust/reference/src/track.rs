//! One track, header and chunks: rules 1 to 22, and the room for its boundaries.

use crate::framing::{Allowance, Boxes, Framed};
use crate::header::Header;
use crate::kinds::*;
use crate::moof::Moof;
use crate::moov::Moov;
use crate::order::Order;
use crate::timeline::Timeline;
use crate::verdict::{Refusal, Verdict};
use crate::{chunk, header, MAX_BYTES};

/// Checks one track; on acceptance the table gets its F + 1 boundaries.
pub fn track(data: &[u8], table: &mut [u64]) -> Verdict {
    let mut timeline = Timeline::new();
    let checked = check(data, |tick, _| timeline.push(tick)).and_then(|track| {
        timeline.write(table)?;
        Ok(Verdict::accepted(track.fragments, track.header.timescale))
    });
    checked.unwrap_or_else(Verdict::from)
}

/// A track that rules 1 to 22 accept.
pub struct Checked {
    pub header: Header,
    pub fragments: usize,
}

/// Rules 1 to 22. `boundary` sees each of the F + 1 boundaries in order, with
/// the `moof` that rule 28 would name for it, the first of its fragment; it may
/// see some before a refusal.
pub fn check(data: &[u8], boundary: impl FnMut(u64, usize)) -> Result<Checked, Refusal> {
    if data.len() > MAX_BYTES {
        return Err(Refusal::new(1, 0));
    }
    let mut allowance = Allowance::new();
    let mut order = Order::Ftyp;
    let mut contents = Contents::new(boundary);
    let mut boxes = Boxes::new(data, 0);
    while let Some(framed) = boxes.next(&mut allowance)? {
        let is_in_order = order.step(&framed);
        match framed.kind {
            MOOV => {
                let mut moov = Moov::default();
                allowance = moov.read(framed, allowance)?;
                if is_in_order {
                    contents.add_moov(&moov);
                }
            }
            MOOF => allowance = contents.moof.read(framed, allowance)?,
            MDAT if is_in_order => contents.add_mdat(framed),
            FTYP if is_in_order => contents.ftyp = Some(framed),
            _ => (),
        }
    }
    order.finish(data.len())?;
    contents.finish()
}

/// What header and chunks come to. They are checked as they come, and a
/// broken rule waits: framing and order are tried first, over the whole slice.
struct Contents<'a, B> {
    boundary: B,
    ftyp: Option<Framed<'a>>,
    header: Option<Header>,
    /// The last one that was met.
    moof: Moof<'a>,
    /// How many chunks began one, and the `moof` of the last that did.
    fragments: usize,
    fragment_at: usize,
    /// The end of the last chunk.
    clock: Option<u64>,
    /// The first of rules 7 to 22 that is broken.
    broken: Option<Refusal>,
}

impl<'a, B: FnMut(u64, usize)> Contents<'a, B> {
    fn new(boundary: B) -> Self {
        Contents {
            boundary,
            ftyp: None,
            header: None,
            moof: Moof::default(),
            fragments: 0,
            fragment_at: 0,
            clock: None,
            broken: None,
        }
    }

    /// Rules 7 to 13. By rule 6 an `ftyp` came before.
    fn add_moov(&mut self, moov: &Moov) {
        let Some(ftyp) = &self.ftyp else { return };
        match header::check(ftyp, moov) {
            Ok(header) => self.header = Some(header),
            Err(refusal) => self.broken = Some(refusal),
        }
    }

    /// Rules 14 to 22. By rule 6 the `mdat` belongs to the last `moof`.
    #[inline(always)]
    fn add_mdat(&mut self, mdat: Framed) {
        let (Some(header), None) = (&self.header, self.broken) else { return };
        match chunk::check(header, &self.moof, &mdat.into(), self.clock) {
            Ok(chunk) => {
                // By rule 21 the first one does.
                if chunk.is_sync {
                    (self.boundary)(chunk.start, self.moof.at);
                    self.fragments += 1;
                    self.fragment_at = self.moof.at;
                }
                self.clock = Some(chunk.end);
            }
            Err(refusal) => self.broken = Some(refusal),
        }
    }

    /// Framing and order are good.
    fn finish(mut self) -> Result<Checked, Refusal> {
        if let Some(refusal) = self.broken {
            return Err(refusal);
        }
        // Rule 6: there was a `moov`, and a chunk.
        let (Some(header), Some(end)) = (self.header, self.clock) else {
            return Err(Refusal::new(6, 0));
        };
        (self.boundary)(end, self.fragment_at);
        Ok(Checked { header, fragments: self.fragments })
    }
}
