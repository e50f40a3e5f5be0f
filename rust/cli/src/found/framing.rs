//! Numbers 1 to 6, 24 and 29: the bytes as boxes, and as records.

use super::{contrast, counted, many, said, Contrast};
use crate::bundle;
use crate::judge::{BoxAt, MOST_BYTES};
use crate::layout::letters;
use crate::place::container_around;
use crate::view::View;
use flangemint::MAX_GATHERED;

/// The contrast of a track or a bundle over the limit, number 1.
pub fn too_long() -> Option<Contrast> {
    contrast(
        said(format!("more than {MOST_BYTES} bytes")),
        counted(MOST_BYTES as i128, format!("at most {MOST_BYTES} bytes")),
    )
}

/// The contrast of number 29, as far as the number tells it: nothing of a stream is kept.
pub fn large_box() -> Option<Contrast> {
    contrast(
        said(format!("a ftyp, moov or moof of more than {MAX_GATHERED} bytes")),
        counted(MAX_GATHERED as i128, format!("at most {MAX_GATHERED} bytes")),
    )
}

pub fn short_header(view: View, place: u64) -> Option<Contrast> {
    let around = container_around(view, place);
    let left = view.end(around).checked_sub(place)?;
    let needed =
        if left < 8 { "8 bytes for a box header" } else { "16 bytes, as the size field is 1" };
    let found = format!("{} left in {}", many(left, "byte"), name(view, around));
    contrast(counted(left, found), said(needed))
}

pub fn impossible_size(view: View, at: usize) -> Option<Contrast> {
    let BoxAt { offset, size, .. } = view.boxes[at];
    let long = view.bytes.get(usize::try_from(offset).ok()?..)?.starts_with(&[0, 0, 0, 1]);
    let (least, what) = if long { (16, "long size") } else { (8, "size") };
    contrast(
        counted(size, format!("{what} {size}")),
        counted(least, format!("{what} {least} or more")),
    )
}

pub fn beyond_parent(view: View, at: usize) -> Option<Contrast> {
    let one = view.boxes[at];
    let parent = view.parent(at);
    let end = view.end(parent);
    let most = end.checked_sub(one.offset)?;
    contrast(
        counted(one.size, format!("size {}", one.size)),
        counted(most, format!("at most {most}, as {} ends at byte {end}", name(view, parent))),
    )
}

pub fn too_many(view: View, place: u64) -> Option<Contrast> {
    let before = view.boxes.iter().filter(|one| one.offset < place).count();
    contrast(said(format!("a further box after {before}")), said(format!("at most {before} boxes")))
}

/// Rule 6: which of the four types had to come.
pub fn order(view: View, place: u64) -> Option<Contrast> {
    let ordered = [*b"ftyp", *b"moov", *b"moof", *b"mdat"];
    let kinds = view.inside(None).map(|nth| view.boxes[nth]).filter(|one| one.offset < place);
    let last = kinds.filter(|one| ordered.contains(&one.kind)).last().map(|one| one.kind);
    let expected = match last.as_ref() {
        None => "ftyp, first of all boxes",
        Some(b"ftyp") => "moov, after ftyp",
        Some(b"moof") => "mdat, directly after its moof",
        _ => "moof, as the next of ftyp, moov, moof and mdat",
    };
    let found = view.at(place).map(|nth| letters(view.boxes[nth].kind));
    contrast(said(found.unwrap_or("the end of the track".to_owned())), said(expected))
}

/// `moof`, or `the track` around the top level.
fn name(view: View, container: Option<usize>) -> String {
    container.map_or("the track".to_owned(), |nth| letters(view.boxes[nth].kind))
}

/// The contrast of a bad record, number 24.
pub fn in_bundle(bytes: &[u8], place: u64, good: u64) -> Option<Contrast> {
    let rest = bytes.get(usize::try_from(place).ok()?..)?;
    let head = bundle::HEAD;
    if good as usize >= bundle::MOST_TRACKS {
        return contrast(
            said(format!("{} after {good} records", many(rest.len() as u64, "byte"))),
            said("16 records at most"),
        );
    }
    if rest.is_empty() && good == 0 {
        return contrast(said("no record"), said("1 to 16 records"));
    }
    if rest.len() < head {
        return contrast(
            said(format!("{} left", many(rest.len() as u64, "byte"))),
            said("6 bytes of mark and length"),
        );
    }
    if !rest.starts_with(&bundle::MARK) {
        let found = format!("{:02x} {:02x}", rest[0], rest[1]);
        return contrast(said(found), said("the mark 53 57 of a record"));
    }
    let length = u32::from_be_bytes(*rest.get(2..)?.first_chunk()?);
    let left = rest.len() - head;
    contrast(
        counted(length, format!("length {length}")),
        counted(left as i128, format!("at most {left}, the bytes left")),
    )
}
