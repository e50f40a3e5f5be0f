//! Framing: rules 2 to 5, box by box in byte order.

use crate::kinds::Kind;
use crate::verdict::Refusal;
use crate::MAX_BOXES;

/// Whole sizes in the paper are those with this header.
pub const SHORT_HEADER: usize = 8;
const LONG_HEADER: usize = 16;

/// A framed box; offsets count from the start of the track.
#[derive(Clone, Copy)]
pub struct Framed<'a> {
    pub at: usize,
    pub body: &'a [u8],
    pub kind: Kind,
    /// A byte is enough for it, and then all of this fits four words.
    header: u8,
}

impl<'a> Framed<'a> {
    /// The header's length, 8 or 16.
    pub fn header(&self) -> usize {
        usize::from(self.header)
    }

    /// The whole size, header included.
    pub fn size(&self) -> usize {
        self.header() + self.body.len()
    }

    /// The boxes inside a container.
    pub fn inside(&self) -> Boxes<'a> {
        Boxes::new(self.body, self.at + self.header())
    }

    /// The rule is broken at this box.
    pub fn refused(&self, number: u64) -> Refusal {
        Refusal::new(number, self.at)
    }

    /// The body as read by `parse`, which gives `None` if it breaks the rule.
    pub fn parsed<T>(
        &self,
        rule: u64,
        parse: impl FnOnce(&'a [u8]) -> Option<T>,
    ) -> Result<T, Refusal> {
        parse(self.body).ok_or(self.refused(rule))
    }
}

/// How many boxes may still come, of the whole slice. The walk along the top level hands it
/// on by value and gets it back, so that it stays in a register.
pub struct Allowance(usize);

impl Allowance {
    /// Rule 5, before any box.
    pub fn new() -> Self {
        Allowance(MAX_BOXES)
    }

    /// Rule 5, where so many boxes have come.
    pub fn after(boxes: usize) -> Self {
        Allowance(MAX_BOXES.saturating_sub(boxes))
    }

    /// How many have come.
    pub fn used(&self) -> usize {
        MAX_BOXES - self.0
    }
}

/// The run of boxes that fills one parent.
#[derive(Clone, Copy, Default)]
pub struct Boxes<'a> {
    rest: &'a [u8],
    at: usize,
}

impl<'a> Boxes<'a> {
    /// `at` is where these bytes start in the track.
    pub fn new(rest: &'a [u8], at: usize) -> Self {
        Boxes { rest, at }
    }

    /// Rules 5, 2, 3 and 4 for the next box, if there are bytes for one. After a
    /// refusal there is no telling where the next box would start.
    #[inline(always)]
    pub fn next(&mut self, allowance: &mut Allowance) -> Result<Option<Framed<'a>>, Refusal> {
        if self.rest.is_empty() {
            return Ok(None);
        }
        if allowance.0 == 0 {
            return Err(Refusal::new(5, self.at));
        }
        allowance.0 -= 1;
        self.read().map(Some)
    }

    /// The next box where framing has passed already.
    #[inline(always)]
    pub fn next_again(&mut self) -> Option<Framed<'a>> {
        self.read().ok()
    }

    /// Rules 2, 3 and 4 for the box at the start of `rest`, which is then behind.
    #[inline(always)]
    fn read(&mut self) -> Result<Framed<'a>, Refusal> {
        let at = self.at;
        let (&size, behind) = self.rest.split_first_chunk().ok_or(Refusal::new(2, at))?;
        let (&kind, behind) = behind.split_first_chunk().ok_or(Refusal::new(2, at))?;
        let (header, size) = match u32::from_be_bytes(size) {
            1 => {
                let long = behind.first_chunk().ok_or(Refusal::new(2, at))?;
                (LONG_HEADER, u64::from_be_bytes(*long))
            }
            short => (SHORT_HEADER, u64::from(short)),
        };
        if size < header as u64 {
            return Err(Refusal::new(3, at));
        }
        // The size is compared before it is added to anything: 2^64 - 1 stays long.
        if size > self.rest.len() as u64 {
            return Err(Refusal::new(4, at));
        }
        let (whole, rest) = self.rest.split_at(size as usize);
        self.rest = rest;
        self.at += whole.len();
        let kind = Kind::from_be_bytes(kind);
        Ok(Framed { at, body: &whole[header..], kind, header: header as u8 })
    }
}
