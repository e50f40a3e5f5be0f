//! Rule 6: `ftyp`, `moov`, then pairs of `moof` and `mdat`.

use crate::framing::Framed;
use crate::kinds::*;
use crate::verdict::Refusal;

/// What the top level waits for.
#[derive(Clone, Copy)]
pub enum Order {
    Ftyp,
    Moov,
    FirstMoof,
    Mdat,
    NextMoof,
    /// No continuation is good any more; the box at this place spoilt it.
    Nothing(usize),
}

impl Order {
    /// Takes the next box of the top level; tells whether it is the one that was waited for.
    #[inline(always)]
    pub fn step(&mut self, framed: &Framed) -> bool {
        let next = match (*self, framed.kind) {
            (Order::Ftyp, FTYP) => Order::Moov,
            (Order::Moov, MOOV) => Order::FirstMoof,
            (Order::FirstMoof | Order::NextMoof, MOOF) => Order::Mdat,
            (Order::Mdat, MDAT) => Order::NextMoof,
            (Order::Nothing(_), _) => return false,
            // Nothing stands before `ftyp`, nor between a `moof` and its `mdat`.
            (Order::Ftyp | Order::Mdat, _) | (_, FTYP | MOOV | MOOF | MDAT) => {
                *self = Order::Nothing(framed.at);
                return false;
            }
            _ => return false,
        };
        *self = next;
        true
    }

    /// The boxes have run out; `end` is the slice length.
    pub fn finish(self, end: usize) -> Result<(), Refusal> {
        match self {
            Order::NextMoof => Ok(()),
            Order::Nothing(place) => Err(Refusal::new(6, place)),
            _ => Err(Refusal::new(6, end)),
        }
    }
}
