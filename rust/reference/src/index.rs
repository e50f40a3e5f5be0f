//! The index: four numbers a box, parents before children, in byte order.

use crate::framing::{Allowance, Boxes, Framed};
use crate::kinds::*;
use crate::verdict::{Refusal, Verdict};
use crate::MAX_BYTES;

/// Lists the boxes of a slice: offset, whole size, type, depth.
pub fn index(data: &[u8], table: &mut [u64]) -> Verdict {
    match list(data, table) {
        Ok(boxes) => Verdict::accepted(boxes, 0),
        Err(refusal) => refusal.into(),
    }
}

fn list(data: &[u8], table: &mut [u64]) -> Result<usize, Refusal> {
    if data.len() > MAX_BYTES {
        return Err(Refusal::new(1, 0));
    }
    let boxes = walk(data, |_, _| ())?;
    let (rows, _) = table.as_chunks_mut::<4>();
    if rows.len() < boxes {
        return Err(Refusal::no_room());
    }
    // Only now may the table be touched, so the good boxes are walked again.
    let mut rows = rows.iter_mut();
    walk(data, |framed, depth| {
        if let Some(row) = rows.next() {
            let (at, size) = (framed.at as u64, framed.size() as u64);
            *row = [at, size, u64::from(framed.kind), depth];
        }
    })
}

/// Where a box stands; containers are known by their path, not by their type alone.
#[derive(Clone, Copy)]
enum Path {
    Top,
    Moov,
    Trak,
    Mdia,
    Minf,
    Moof,
    /// In a container that holds leaves only.
    Last,
}

impl Path {
    /// The path inside a box of this kind, if that makes it a container.
    fn inside(self, kind: Kind) -> Option<Path> {
        match (self, kind) {
            (Path::Top, MOOV) => Some(Path::Moov),
            (Path::Top, MOOF) => Some(Path::Moof),
            (Path::Moov, TRAK) => Some(Path::Trak),
            (Path::Trak, MDIA) => Some(Path::Mdia),
            (Path::Mdia, MINF) => Some(Path::Minf),
            (Path::Moov, MVEX) | (Path::Trak, EDTS) => Some(Path::Last),
            (Path::Minf, DINF | STBL) | (Path::Moof, TRAF) => Some(Path::Last),
            _ => None,
        }
    }
}

/// Frames a whole slice and shows each box with its depth; gives the number of boxes.
pub fn walk<'a>(data: &'a [u8], mut visit: impl FnMut(&Framed<'a>, u64)) -> Result<usize, Refusal> {
    let left = walk_run(Boxes::new(data, 0), Path::Top, 0, Allowance::new(), &mut visit)?;
    Ok(left.used())
}

/// Paths end after six levels, so the recursion does too. Gives the allowance that is left.
fn walk_run<'a>(
    mut boxes: Boxes<'a>,
    path: Path,
    depth: u64,
    mut allowance: Allowance,
    visit: &mut impl FnMut(&Framed<'a>, u64),
) -> Result<Allowance, Refusal> {
    while let Some(framed) = boxes.next(&mut allowance)? {
        visit(&framed, depth);
        if let Some(inside) = path.inside(framed.kind) {
            allowance = walk_run(framed.inside(), inside, depth + 1, allowance, visit)?;
        }
    }
    Ok(allowance)
}
