//! Numbers 7 to 13: the header. Number 14 counts as 7 does.

use super::{contrast, counted, other_track_id, said, size_and_version, Contrast};
use crate::layout::{self, letters, Counted};
use crate::view::View;

/// Rules 7 and 14: the second of a kind, or the container that lacks one.
pub fn count(view: View, at: usize) -> Option<Contrast> {
    let kind = |nth: usize| view.boxes[nth].kind;
    let container = |nth: usize| layout::find(view.parent(nth).map(kind), kind(nth));
    let number = |inside: usize, wanted: &Counted| {
        view.inside(Some(inside)).filter(|nth| wanted.kinds.contains(&&kind(*nth))).count()
    };
    let names = |wanted: &Counted| {
        let names: Vec<_> = wanted.kinds.iter().map(|kind| letters(**kind)).collect();
        names.join(" or ")
    };
    if let Some(parent) = view.parent(at) {
        let wanted =
            container(parent)?.counted.iter().find(|wanted| wanted.kinds.contains(&&kind(at)));
        let nth_of_kind = |wanted: &Counted| {
            view.inside(Some(parent))
                .filter(|nth| *nth < at && wanted.kinds.contains(&&kind(*nth)))
                .count()
        };
        if let Some(wanted) = wanted.filter(|wanted| nth_of_kind(wanted) == wanted.most) {
            let there = number(parent, wanted);
            let inside = letters(kind(parent));
            let found = format!("{there} boxes {} in {inside}", names(wanted));
            return contrast(
                counted(there as i128, found),
                counted(1, format!("no more than {}", wanted.most)),
            );
        }
    }
    let lacking = container(at)?.counted.iter().find(|wanted| number(at, wanted) < wanted.least)?;
    let found = format!("no {} in {}", names(lacking), letters(kind(at)));
    let most = if lacking.most == 1 { "one" } else { "one or more" };
    contrast(counted(0, found), counted(1, most))
}

/// Rule 8 as it is written, for the kind of box.
pub fn body(view: View, at: usize) -> Option<Contrast> {
    let expected = match &view.boxes[at].kind {
        b"ftyp" => "16 bytes or more, a multiple of 4",
        b"mvhd" => "108 bytes with version 0, or 120 with version 1",
        b"tkhd" => "92 bytes with version 0, or 104 with version 1",
        b"mdhd" => "32 bytes with version 0, or 44 with version 1",
        b"hdlr" => "32 bytes or more",
        b"stsz" => "20 bytes or more",
        b"trex" => "32 bytes with version 0",
        _ => "16 bytes or more",
    };
    let longer = if view.body(at).header == 16 { ", and 8 more for its long header" } else { "" };
    contrast(size_and_version(view, at), said(format!("{expected}{longer}")))
}

pub fn brands(view: View, at: usize) -> Option<Contrast> {
    let body = view.body(at);
    let brands: Vec<_> =
        (8..body.bytes.len()).step_by(4).filter_map(|at| body.kind(at)).map(letters).collect();
    let found = if brands.is_empty() {
        "no compatible brand".to_owned()
    } else {
        format!("brands {}", brands.join(" "))
    };
    contrast(said(found), said("cmfc or cmf2 among the compatible brands"))
}

pub fn track_id(view: View, at: usize) -> Option<Contrast> {
    if view.boxes[at].kind == *b"tkhd" {
        return contrast(counted(0, "track ID 0"), said("track ID 1 or more"));
    }
    other_track_id(view, at)
}

pub fn handler(view: View, at: usize) -> Option<Contrast> {
    let minf = view.find(&[b"moov", b"trak", b"mdia", b"minf"])?;
    let mut kinds = view.inside(Some(minf)).map(|nth| view.boxes[nth].kind);
    let media_header = kinds.find(|kind| [*b"vmhd", *b"smhd", *b"sthd"].contains(kind))?;
    let handler = letters(view.body(at).kind(8)?);
    contrast(
        said(format!("handler {handler} with {}", letters(media_header))),
        said("vide with vmhd, soun with smhd, or subt with sthd"),
    )
}

pub fn sample_table(view: View, at: usize) -> Option<Contrast> {
    let (place, expected) = match &view.boxes[at].kind {
        b"stsd" => (4, 1),
        b"stsz" => (8, 0),
        _ => (4, 0),
    };
    let found = view.body(at).word(place)?;
    contrast(
        counted(found, format!("entry count {found}")),
        counted(expected, format!("entry count {expected}")),
    )
}
