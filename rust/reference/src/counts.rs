//! Counting boxes of one type, for rules 7 and 14.

use crate::framing::Framed;
use crate::verdict::Refusal;

/// The boxes of one type, or of one group of types, in a container.
#[derive(Default)]
pub struct Tally<'a> {
    first: Option<Framed<'a>>,
    /// Where the second one starts.
    extra: Option<usize>,
}

impl<'a> Tally<'a> {
    /// Takes the next one in byte order.
    pub fn add(&mut self, framed: &Framed<'a>) {
        if self.first.is_none() {
            self.first = Some(*framed);
        } else {
            self.extra.get_or_insert(framed.at);
        }
    }

    /// The one box; if it is missing, the place is the container's.
    pub fn one(&self, rule: u64, container: usize) -> Result<&Framed<'a>, Refusal> {
        self.at_most_one(rule)?.ok_or(Refusal::new(rule, container))
    }

    /// The one box, if there is any.
    pub fn at_most_one(&self, rule: u64) -> Result<Option<&Framed<'a>>, Refusal> {
        match self.extra {
            None => Ok(self.first.as_ref()),
            Some(extra) => Err(Refusal::new(rule, extra)),
        }
    }
}
