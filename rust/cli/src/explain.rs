//! `flangemint explain`: the section of a number.

use crate::args::Explain;
use crate::failure::Failure;
use crate::refusals::section;
use crate::status::Status;
use crate::{output, words};

pub fn run(args: &Explain) -> Result<Status, Failure> {
    let told = section(args.number);
    let told =
        told.ok_or_else(|| Failure::new(format!("no verdict has the number {}", args.number)))?;
    output::answer(words::explanation(told).as_bytes())?;
    Ok(Status::Accepted)
}
