//! Rules 8 to 13.

use super::{other_u32, other_u8, resize, some_of};
use crate::layout::{steps, HEADER_BODIES, SAMPLE_TABLES};
use crate::node::{self, Kind, Node};
use crate::rng::Rng;

/// Rule 8: bodies of the wrong size or version.
pub fn body(boxes: &mut [Node], rng: &mut Rng) -> u64 {
    let mut place = 0;
    for rank in some_of(HEADER_BODIES.len(), rng) {
        let (path, smallest) = HEADER_BODIES[rank];
        let path = steps(path);
        let target = node::at(boxes, &path);
        let has_version = matches!(&target.kind, b"mvhd" | b"tkhd" | b"mdhd" | b"trex");
        let is_ftyp = target.kind == *b"ftyp";
        let body = target.body();
        match rng.chance(50) {
            true if has_version => body[0] = other_u8(body[0], rng),
            _ if has_version => resize(body, rng),
            true if is_ftyp => body.extend(vec![b'x'; 1 + rng.index(3)]),
            _ => body.truncate(rng.index(smallest - 8)),
        }
        place = node::place(boxes, &path);
    }
    place
}

/// Rule 9: other brands.
pub fn brands(boxes: &mut [Node], rng: &mut Rng) -> u64 {
    let others: [&Kind; 7] = [b"iso6", b"cmff", b"CMFC", b"cmf1", b"cmfd", b"fcmf", b"2cmf"];
    let ftyp = steps("ftyp");
    let body = node::at(boxes, &ftyp).body();
    body.truncate(8);
    body.extend((0..rng.below(5)).flat_map(|_| *rng.pick(&others)));
    if rng.chance(50) {
        // Neither the major brand nor the minor version counts, nor halves of two.
        let at = rng.pick(&[0, 4, 2, 3]);
        body[at..at + 4].copy_from_slice(b"cmfc");
    }
    node::place(boxes, &ftyp)
}

/// Rules 10 to 12: a field with a wrong value.
pub fn field(number: u64, boxes: &mut [Node], rng: &mut Rng) -> u64 {
    let (path, at, value) = match number {
        10 => ("moov/trak/mdia/mdhd", after_times(boxes, "moov/trak/mdia/mdhd"), 0),
        11 if rng.chance(50) => ("moov/trak/tkhd", after_times(boxes, "moov/trak/tkhd"), 0),
        11 => {
            let id = node::at(boxes, &steps("moov/mvex/trex")).get_u32(4);
            let other = other_u32(id, rng);
            ("moov/mvex/trex", 4, rng.pick(&[0, other]))
        }
        _ => {
            let right = node::at(boxes, &steps("moov/trak/mdia/hdlr")).get_u32(8);
            ("moov/trak/mdia/hdlr", 8, other_handler(right, rng))
        }
    };
    node::at(boxes, &steps(path)).put_u32(at, value);
    node::place(boxes, &steps(path))
}

/// Where the word after the two times stands.
fn after_times(boxes: &mut [Node], path: &str) -> usize {
    match node::at(boxes, &steps(path)).body()[0] {
        0 => 12,
        _ => 20,
    }
}

fn other_handler(right: u32, rng: &mut Rng) -> u32 {
    let any = rng.u32().to_be_bytes();
    let handlers: [&Kind; 7] = [b"vide", b"soun", b"subt", b"text", b"VIDE", b"vmhd", &any];
    loop {
        let handler = u32::from_be_bytes(*rng.pick(&handlers));
        if handler != right {
            return handler;
        }
    }
}

/// Rule 13: counts that say that a table isn't empty, or `stsd` not of one entry.
pub fn sample_tables(boxes: &mut [Node], rng: &mut Rng) -> u64 {
    let mut place = 0;
    for rank in some_of(SAMPLE_TABLES.len(), rng) {
        let (path, at, right) = SAMPLE_TABLES[rank];
        let count = other_u32(right, rng);
        node::at(boxes, &steps(path)).put_u32(at, count);
        place = node::place(boxes, &steps(path));
    }
    place
}
