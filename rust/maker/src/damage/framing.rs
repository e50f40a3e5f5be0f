//! Rules 2 to 5.

use crate::node::{self, Node};
use crate::rng::Rng;

/// Rules 2 to 4: what ends some container, or the slice, is no box.
pub fn tail(number: u64, boxes: &mut Vec<Node>, rng: &mut Rng) -> u64 {
    let mut paths = node::containers(boxes);
    paths.push(Vec::new());
    let mut path = rng.pick(&paths);
    let bytes = match number {
        2 => cut_header(rng),
        3 => size_too_small(rng),
        _ => size_too_large(rng),
    };
    let bare = Node::bare(bytes);
    path.push((bare.kind, 0));
    node::inside(boxes, &path[..path.len() - 1]).push(bare);
    node::place(boxes, &path)
}

fn cut_header(rng: &mut Rng) -> Vec<u8> {
    if rng.chance(50) {
        let len = 1 + rng.index(7);
        return rng.bytes(len);
    }
    let len = 4 + rng.index(8);
    [&[0, 0, 0, 1][..], &rng.bytes(len)].concat()
}

fn size_too_small(rng: &mut Rng) -> Vec<u8> {
    let after = rng.index(20);
    let after = rng.bytes(after);
    if rng.chance(60) {
        let size = rng.pick(&[0u32, 2, 3, 4, 5, 6, 7]);
        return [&size.to_be_bytes(), &rng.bytes(4)[..], &after].concat();
    }
    let size = rng.below(16);
    [&[0, 0, 0, 1], &rng.bytes(4)[..], &size.to_be_bytes(), &after].concat()
}

fn size_too_large(rng: &mut Rng) -> Vec<u8> {
    let after = rng.index(20);
    let after = rng.bytes(after);
    if rng.chance(60) {
        let least = 9 + after.len() as u32;
        let size = rng.pick(&[least, least + 7, least + 100, 1 << 30, 1 << 31, u32::MAX]);
        return [&size.to_be_bytes(), &rng.bytes(4)[..], &after].concat();
    }
    let least = 17 + after.len() as u64;
    let near_wrap = u64::MAX - rng.below(10_000);
    let size = rng.pick(&[
        least,
        least + 9,
        1 << 30,
        1 << 32,
        (1 << 32) + 16,
        1 << 63,
        u64::MAX,
        near_wrap,
    ]);
    [&[0, 0, 0, 1], &rng.bytes(4)[..], &size.to_be_bytes(), &after].concat()
}

/// Rule 5's limit.
pub const MAX_BOXES: usize = 65_536;

/// Rule 5: empty boxes somewhere, until the last box or some bytes are too many.
pub fn too_many(boxes: &mut Vec<Node>, rng: &mut Rng) -> u64 {
    let extra = rng.pick(&[0, 1, 1, 2, 100]);
    crowd(boxes, MAX_BOXES + extra, rng);
    if extra == 0 {
        let len = 1 + rng.index(9);
        boxes.push(Node::bare(rng.bytes(len)));
    }
    node::place_of_nth(boxes, MAX_BOXES).expect("more boxes than allowed")
}

/// Empty boxes in some container, or at the end of the slice, up to this many boxes in all.
pub fn crowd(boxes: &mut Vec<Node>, total: usize, rng: &mut Rng) {
    let missing = total - node::count(boxes);
    let mut paths = node::containers(boxes);
    paths.push(Vec::new());
    let path = rng.pick(&paths);
    let inside = node::inside(boxes, &path);
    let at = if path.is_empty() { inside.len() } else { rng.index(inside.len() + 1) };
    let kind = rng.pick(&[*b"free", *b"uuid"]);
    inside.splice(at..at, (0..missing).map(|_| Node::leaf(&kind, vec![])));
}
