//! Rule 6.

use crate::decorate::stray;
use crate::node::{self, Kind, Node};
use crate::rng::Rng;

/// A top level that goes wrong at a known box, or ends too early.
pub fn disorder(boxes: &mut Vec<Node>, rng: &mut Rng) -> u64 {
    let moov = nth(boxes, b"moov", 0);
    let pairs = boxes.iter().filter(|node| node.kind == *b"moof").count();
    let moof = nth(boxes, b"moof", rng.index(pairs));
    let any = rng.index(boxes.len()) + 1;
    // The box that spoils the order stands here in the end.
    let spoilt = match rng.below(12) {
        0 => insert(boxes, 0, stray("", rng)),
        1 => remove(boxes, 0),
        2 => {
            boxes.swap(0, moov);
            0
        }
        3 => repeat(boxes, 0, any),
        4 => repeat(boxes, moov, any.max(moov + 1)),
        5 => {
            boxes.remove(moov);
            nth(boxes, b"moof", 0)
        }
        6 => remove(boxes, moof),
        7 => remove(boxes, moof + 1),
        8 => insert(boxes, moof + 1, stray("", rng)),
        9 => repeat(boxes, moof, moof) + 1,
        10 => repeat(boxes, moof + 1, moof + 2),
        _ => {
            let kept = rng.pick(&[moof + 1, any.min(nth(boxes, b"moof", 0))]);
            boxes.truncate(kept);
            boxes.len()
        }
    };
    node::total_size(&boxes[..spoilt]) as u64
}

fn nth(boxes: &[Node], kind: &Kind, nth: usize) -> usize {
    node::position(boxes, (*kind, nth)).expect("a good track has it")
}

fn insert(boxes: &mut Vec<Node>, at: usize, node: Node) -> usize {
    boxes.insert(at, node);
    at
}

/// Puts a copy of the box elsewhere.
fn repeat(boxes: &mut Vec<Node>, of: usize, at: usize) -> usize {
    let copy = boxes[of].clone();
    insert(boxes, at, copy)
}

/// Removes a box; the next one stands in its place.
fn remove(boxes: &mut Vec<Node>, at: usize) -> usize {
    boxes.remove(at);
    at
}
