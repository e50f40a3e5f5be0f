//! The same answer piece by piece. Of a box's bytes only those of `ftyp`, `moov` and `moof` are
//! kept, and by rule 29 these are few; what a broken rule comes to waits for the end where a
//! later box may still break one that is tried before it.

use super::{is_bounded, PiecesAnswer};
use crate::chunk::DataBox;
use crate::framing::{Allowance, Boxes, Framed};
use crate::header::Header;
use crate::kinds::*;
use crate::moof::Moof;
use crate::moov::Moov;
use crate::verdict::{Refusal, Verdict};
use crate::{chunk, header, MAX_BOXES, MAX_BYTES, MAX_KEPT};

/// A track that arrives in pieces.
#[derive(Default)]
pub struct Pieces {
    /// How many bytes have come.
    taken: u64,
    /// How many boxes have come, at any depth.
    boxes: usize,
    /// Rules 2, 3, 5 and 29, and 4 inside a container: no later byte changes anything but rule 1.
    badly_framed: Option<Refusal>,
    /// Where the box at hand starts.
    at: usize,
    /// As much of its header as has come; nothing between boxes.
    head: Vec<u8>,
    /// The box at hand, once its header is whole.
    open: Option<Open>,
    /// The last of rule 6's four types that came in order.
    last: Option<Kind>,
    /// The box that broke rule 6.
    disorder: Option<usize>,
    ftyp: Kept,
    /// The last `moov` or `moof`.
    kept: Kept,
    contents: Contents,
}

/// A box of the top level whose header is whole.
struct Open {
    kind: Kind,
    header: usize,
    payload: u64,
    /// Of the payload, how many bytes are still to come.
    missing: u64,
    /// It is the one that rule 6 waits for.
    is_awaited: bool,
}

/// All bytes of one box, and where it stands.
#[derive(Default)]
struct Kept {
    at: usize,
    bytes: Vec<u8>,
}

impl Kept {
    fn framed(&self) -> Option<Framed<'_>> {
        Boxes::new(&self.bytes, self.at).next_again()
    }
}

impl Pieces {
    /// No byte has come yet.
    pub fn new() -> Self {
        Pieces::default()
    }

    /// Takes the next bytes, any number of them.
    pub fn feed(&mut self, piece: &[u8]) {
        self.taken = self.taken.saturating_add(piece.len() as u64);
        let mut rest = piece;
        while !rest.is_empty() && self.badly_framed.is_none() {
            let taken = match &self.open {
                None => self.take_header_byte(&mut rest),
                Some(_) => self.take_body(&mut rest),
            };
            self.badly_framed = taken.and_then(|()| self.close_if_whole()).err();
        }
    }

    /// The answer, if no more bytes come.
    pub fn finish(&self) -> PiecesAnswer {
        self.answer().unwrap_or_else(PiecesAnswer::from)
    }

    fn answer(&self) -> Result<PiecesAnswer, Refusal> {
        if self.taken > MAX_BYTES as u64 {
            return Err(Refusal::new(1, 0));
        }
        if let Some(refusal) = self.badly_framed {
            return Err(refusal);
        }
        if self.open.is_some() {
            return Err(Refusal::new(4, self.at));
        }
        if !self.head.is_empty() {
            return Err(Refusal::new(2, self.at));
        }
        if let Some(place) = self.disorder {
            return Err(Refusal::new(6, place));
        }
        if self.last != Some(MDAT) {
            return Err(Refusal::new(6, self.at));
        }
        self.contents.answer()
    }

    /// Rules 5, 3 and 29, in the byte where each is known; 2 and 4 are known at the end.
    fn take_header_byte(&mut self, rest: &mut &[u8]) -> Result<(), Refusal> {
        let Some((byte, behind)) = rest.split_first() else { return Ok(()) };
        if self.boxes == MAX_BOXES {
            return Err(Refusal::new(5, self.at));
        }
        *rest = behind;
        self.head.push(*byte);
        let (kind, size) = match *self.head.as_slice() {
            [0, 0, 0, 1, a, b, c, d, ref long @ ..] => match <[u8; 8]>::try_from(long) {
                Ok(long) => ([a, b, c, d], u64::from_be_bytes(long)),
                Err(_) => return Ok(()),
            },
            [e, f, g, h, a, b, c, d] => ([a, b, c, d], u64::from(u32::from_be_bytes([e, f, g, h]))),
            _ => return Ok(()),
        };
        self.begin(Kind::from_be_bytes(kind), size)
    }

    /// The header is whole.
    fn begin(&mut self, kind: Kind, size: u64) -> Result<(), Refusal> {
        let header = self.head.len();
        let Some(payload) = size.checked_sub(header as u64) else {
            return Err(Refusal::new(3, self.at));
        };
        if is_bounded(kind) && size > MAX_KEPT {
            return Err(Refusal::new(29, self.at));
        }
        self.boxes += 1;
        let is_awaited = self.take_kind(kind);
        self.open = Some(Open { kind, header, payload, missing: payload, is_awaited });
        let head = std::mem::take(&mut self.head);
        if is_bounded(kind) {
            self.kept = Kept { at: self.at, bytes: head };
        }
        Ok(())
    }

    /// Rule 6; tells whether this box is the one that it waits for.
    fn take_kind(&mut self, kind: Kind) -> bool {
        let awaited = match self.last {
            None => FTYP,
            Some(FTYP) => MOOV,
            Some(MOOF) => MDAT,
            _ => MOOF,
        };
        if self.disorder.is_some() {
            return false;
        }
        if kind == awaited {
            self.last = Some(kind);
            return true;
        }
        // Others are passed over, but not before `ftyp` and not between a `moof` and its `mdat`.
        let is_ordered = is_bounded(kind) || kind == MDAT;
        if is_ordered || matches!(awaited, FTYP | MDAT) {
            self.disorder = Some(self.at);
        }
        false
    }

    fn take_body(&mut self, rest: &mut &[u8]) -> Result<(), Refusal> {
        let Some(open) = &mut self.open else { return Ok(()) };
        let most = usize::try_from(open.missing).unwrap_or(usize::MAX);
        let (body, behind) = rest.split_at(most.min(rest.len()));
        *rest = behind;
        open.missing -= body.len() as u64;
        if is_bounded(open.kind) {
            self.kept.bytes.extend_from_slice(body);
        }
        Ok(())
    }

    fn close_if_whole(&mut self) -> Result<(), Refusal> {
        match self.open.take_if(|open| open.missing == 0) {
            Some(whole) => self.close(&whole),
            None => Ok(()),
        }
    }

    /// The box is whole: what it holds is framed, and judged if the order allows.
    fn close(&mut self, whole: &Open) -> Result<(), Refusal> {
        let Open { kind, header, payload, is_awaited, .. } = *whole;
        match (kind, self.kept.framed()) {
            (FTYP, _) if is_awaited => self.ftyp = std::mem::take(&mut self.kept),
            (MOOV, Some(framed)) => {
                let mut moov = Moov::default();
                self.boxes = moov.read(framed, Allowance::after(self.boxes))?.used();
                if let (true, Some(ftyp)) = (is_awaited, self.ftyp.framed()) {
                    self.contents.add_moov(&ftyp, &moov);
                }
            }
            (MOOF, Some(framed)) => {
                let mut moof = Moof::default();
                self.boxes = moof.read(framed, Allowance::after(self.boxes))?.used();
            }
            (MDAT, Some(framed)) if is_awaited => {
                let mut moof = Moof::default();
                // It was framed before.
                moof.read(framed, Allowance::new())?;
                self.contents.add_chunk(&moof, &DataBox { at: self.at, header, payload });
            }
            _ => (),
        }
        // Its bytes have come, so that there are no more than this machine has addresses for.
        self.at += header + payload as usize;
        Ok(())
    }
}

/// What header and chunks come to; after the first broken rule of 7 to 22 no more are judged.
#[derive(Default)]
struct Contents {
    header: Option<Header>,
    fragments: usize,
    first: Option<u64>,
    /// The end of the last chunk.
    clock: Option<u64>,
    broken: Option<Refusal>,
}

impl Contents {
    fn add_moov(&mut self, ftyp: &Framed, moov: &Moov) {
        match header::check(ftyp, moov) {
            Ok(header) => self.header = Some(header),
            Err(refusal) => self.broken = Some(refusal),
        }
    }

    fn add_chunk(&mut self, moof: &Moof, mdat: &DataBox) {
        let (Some(header), None) = (&self.header, self.broken) else { return };
        match chunk::check(header, moof, mdat, self.clock) {
            Ok(chunk) => {
                self.fragments += usize::from(chunk.is_sync);
                self.first.get_or_insert(chunk.start);
                self.clock = Some(chunk.end);
            }
            Err(refusal) => self.broken = Some(refusal),
        }
    }

    /// Framing and order are good, so that a header and a chunk came.
    fn answer(&self) -> Result<PiecesAnswer, Refusal> {
        if let Some(refusal) = self.broken {
            return Err(refusal);
        }
        let (Some(header), Some(first), Some(last)) = (&self.header, self.first, self.clock) else {
            return Err(Refusal::new(6, 0));
        };
        let verdict = Verdict::accepted(self.fragments, header.timescale);
        Ok(PiecesAnswer { verdict, first, last })
    }
}
