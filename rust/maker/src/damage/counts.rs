//! Rules 7 and 14.

use super::some_of;
use crate::layout::{steps, steps_in_chunk, Container};
use crate::layout::{CONTAINERS, HEADER_CONTAINERS, MEDIA_HEADERS};
use crate::node::{self, Kind, Node, Step};
use crate::rng::Rng;

/// Rule 7: boxes of the header missing, or too many. Gives the place of the
/// first in the order of the paper.
pub fn header(boxes: &mut Vec<Node>, rng: &mut Rng) -> u64 {
    let mut place = None;
    while place.is_none() {
        for rank in some_of(HEADER_CONTAINERS, rng) {
            let container = &CONTAINERS[rank];
            let path = steps(container.path);
            if node::find(boxes, &path).is_some() {
                place = Some(miscount(boxes, container, &path, rng));
            }
        }
    }
    place.expect("some container is there")
}

/// Rule 14: boxes of a chunk missing, or too many.
pub fn chunk(boxes: &mut Vec<Node>, nth: usize, rng: &mut Rng) -> u64 {
    let containers = &CONTAINERS[HEADER_CONTAINERS..];
    let mut place = 0;
    for rank in some_of(containers.len(), rng) {
        let path = steps_in_chunk(containers[rank].path, nth);
        place = miscount(boxes, &containers[rank], &path, rng);
    }
    place
}

/// Damages the counts in one container, from the last type to the first.
fn miscount(boxes: &mut Vec<Node>, container: &Container, path: &[Step], rng: &mut Rng) -> u64 {
    let mut place = 0;
    for rank in some_of(container.counted.len(), rng) {
        place = miscount_one(boxes, path, container.counted[rank], rng);
    }
    place
}

fn miscount_one(boxes: &mut Vec<Node>, path: &[Step], kind: &Kind, rng: &mut Rng) -> u64 {
    let group = group(kind);
    let is_counted = |node: &&Node| group.contains(&node.kind);
    let may_miss = !matches!(kind, b"edts" | b"elng");
    let may_repeat = kind != b"trun";
    let inside = node::inside(boxes, path);
    if may_miss && (!may_repeat || rng.chance(50)) {
        inside.retain(|node| !is_counted(&node));
        return node::place(boxes, path);
    }
    let count = rng.pick(&[2, 2, 3, 4]);
    while inside.iter().filter(is_counted).count() < count {
        let like = inside.iter().find(|node| node.kind == *kind).cloned();
        let copy = like.unwrap_or_else(|| fresh(kind));
        inside.insert(rng.index(inside.len() + 1), copy);
    }
    let second = inside.iter().filter(is_counted).nth(1).expect("two of them").kind;
    let first = inside.iter().find(is_counted).expect("two of them").kind;
    let nth = usize::from(first == second);
    node::place(boxes, &[path, &[(second, nth)]].concat())
}

/// The types that are counted as one with this type.
fn group(kind: &Kind) -> Vec<Kind> {
    if MEDIA_HEADERS.contains(kind) {
        return MEDIA_HEADERS.to_vec();
    }
    vec![*kind]
}

/// A box of a type that this track doesn't have.
fn fresh(kind: &Kind) -> Node {
    match kind {
        b"edts" => Node::container(kind, vec![Node::leaf(b"elst", vec![])]),
        _ => Node::leaf(kind, vec![]),
    }
}
