//! Which boxes are containers, and which boxes the rules count in them.

use crate::node::{Kind, Step};

pub struct Container {
    /// The names from the top level down, with `/` between them.
    pub path: &'static str,
    /// The types that rules 7 and 14 count in it, in their order.
    pub counted: &'static [&'static Kind],
}

const fn container(path: &'static str, counted: &'static [&'static Kind]) -> Container {
    Container { path, counted }
}

/// The header's containers in rule 7's order, then rule 14's.
pub const CONTAINERS: [Container; 10] = [
    container("moov", &[b"mvhd", b"trak", b"mvex"]),
    container("moov/trak", &[b"tkhd", b"edts", b"mdia"]),
    container("moov/trak/edts", &[b"elst"]),
    container("moov/trak/mdia", &[b"mdhd", b"hdlr", b"elng", b"minf"]),
    container("moov/trak/mdia/minf", &[b"vmhd", b"smhd", b"sthd", b"dinf", b"stbl"]),
    container("moov/trak/mdia/minf/dinf", &[b"dref"]),
    container("moov/trak/mdia/minf/stbl", &[b"stsd", b"stts", b"stsc", b"stsz", b"stco"]),
    container("moov/mvex", &[b"trex"]),
    container("moof", &[b"mfhd", b"traf"]),
    container("moof/traf", &[b"tfhd", b"tfdt", b"trun"]),
];

/// How many of `CONTAINERS` belong to the header.
pub const HEADER_CONTAINERS: usize = 8;

/// The types that rule 6 orders.
pub const TOP_LEVEL: &[&Kind] = &[b"ftyp", b"moov", b"moof", b"mdat"];

/// The three of which a header has one in all.
pub const MEDIA_HEADERS: [Kind; 3] = [*b"vmhd", *b"smhd", *b"sthd"];

/// The types that a rule orders or counts inside a path; the top level's path is empty.
pub fn named(path: &str) -> &'static [&'static Kind] {
    match CONTAINERS.iter().find(|container| container.path == path) {
        Some(container) => container.counted,
        None => TOP_LEVEL,
    }
}

/// The path of a box of this kind inside a path.
pub fn join(path: &str, kind: &Kind) -> String {
    let name = String::from_utf8_lossy(kind);
    if path.is_empty() {
        return name.into_owned();
    }
    format!("{path}/{name}")
}

pub fn is_container(path: &str) -> bool {
    CONTAINERS.iter().any(|container| container.path == path)
}

/// The steps to the first box on a path.
pub fn steps(path: &str) -> Vec<Step> {
    let kind = |name: &str| name.as_bytes().try_into().expect("four letters");
    path.split('/').map(|name| (kind(name), 0)).collect()
}

/// The steps to a box of the n-th chunk.
pub fn steps_in_chunk(path: &str, nth: usize) -> Vec<Step> {
    let mut steps = steps(path);
    steps[0].1 = nth;
    steps
}

/// The n-th run of a chunk.
pub fn trun(chunk: usize, run: usize) -> Vec<Step> {
    let mut steps = steps_in_chunk("moof/traf/trun", chunk);
    steps[2].1 = run;
    steps
}

/// Rule 8's boxes with their smallest whole size.
pub const HEADER_BODIES: [(&str, usize); 11] = [
    ("ftyp", 16),
    ("moov/mvhd", 108),
    ("moov/trak/tkhd", 92),
    ("moov/trak/mdia/mdhd", 32),
    ("moov/trak/mdia/hdlr", 32),
    ("moov/trak/mdia/minf/stbl/stsd", 16),
    ("moov/trak/mdia/minf/stbl/stts", 16),
    ("moov/trak/mdia/minf/stbl/stsc", 16),
    ("moov/trak/mdia/minf/stbl/stco", 16),
    ("moov/trak/mdia/minf/stbl/stsz", 20),
    ("moov/mvex/trex", 32),
];

/// Rule 13's boxes: where in the body the count stands, and what it must be.
pub const SAMPLE_TABLES: [(&str, usize, u32); 5] = [
    ("moov/trak/mdia/minf/stbl/stsd", 4, 1),
    ("moov/trak/mdia/minf/stbl/stts", 4, 0),
    ("moov/trak/mdia/minf/stbl/stsc", 4, 0),
    ("moov/trak/mdia/minf/stbl/stsz", 8, 0),
    ("moov/trak/mdia/minf/stbl/stco", 4, 0),
];
