//! Which boxes are containers, and which boxes rules 7 and 14 count in them. For explanations
//! alone: the verdict knows its own.

use crate::judge::Kind;

pub struct Container {
    /// The container around it; the top level has none.
    pub inside: Option<&'static Kind>,
    pub kind: &'static Kind,
    /// What is counted in it, in the rules' order.
    pub counted: &'static [Counted],
}

/// Kinds that are counted together.
pub struct Counted {
    pub kinds: &'static [&'static Kind],
    pub least: usize,
    pub most: usize,
}

const fn one(kinds: &'static [&'static Kind]) -> Counted {
    Counted { kinds, least: 1, most: 1 }
}

const fn at_most_one(kinds: &'static [&'static Kind]) -> Counted {
    Counted { kinds, least: 0, most: 1 }
}

const fn some(kinds: &'static [&'static Kind]) -> Counted {
    Counted { kinds, least: 1, most: usize::MAX }
}

const fn container(
    inside: Option<&'static Kind>,
    kind: &'static Kind,
    counted: &'static [Counted],
) -> Container {
    Container { inside, kind, counted }
}

const CONTAINERS: [Container; 10] = [
    container(None, b"moov", &[one(&[b"mvhd"]), one(&[b"trak"]), one(&[b"mvex"])]),
    container(Some(b"moov"), b"trak", &[one(&[b"tkhd"]), at_most_one(&[b"edts"]), one(&[b"mdia"])]),
    container(Some(b"trak"), b"edts", &[one(&[b"elst"])]),
    container(
        Some(b"trak"),
        b"mdia",
        &[one(&[b"mdhd"]), one(&[b"hdlr"]), at_most_one(&[b"elng"]), one(&[b"minf"])],
    ),
    container(
        Some(b"mdia"),
        b"minf",
        &[one(&[b"vmhd", b"smhd", b"sthd"]), one(&[b"dinf"]), one(&[b"stbl"])],
    ),
    container(Some(b"minf"), b"dinf", &[one(&[b"dref"])]),
    container(
        Some(b"minf"),
        b"stbl",
        &[one(&[b"stsd"]), one(&[b"stts"]), one(&[b"stsc"]), one(&[b"stsz"]), one(&[b"stco"])],
    ),
    container(Some(b"moov"), b"mvex", &[one(&[b"trex"])]),
    container(None, b"moof", &[one(&[b"mfhd"]), one(&[b"traf"])]),
    container(Some(b"moof"), b"traf", &[one(&[b"tfhd"]), one(&[b"tfdt"]), some(&[b"trun"])]),
];

/// The container of this kind inside that one, which is itself a container on its path.
pub fn find(inside: Option<Kind>, kind: Kind) -> Option<&'static Container> {
    CONTAINERS.iter().find(|one| one.inside.copied() == inside && *one.kind == kind)
}

/// The letters of a type; other bytes than ASCII letters as `\xa9`.
pub fn letters(kind: Kind) -> String {
    kind.escape_ascii().to_string()
}
