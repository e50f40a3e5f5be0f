//! Boxes of any kind in any place, well framed: something to list, seldom a track.

use crate::decorate::KINDS;
use crate::layout::{is_container, join};
use crate::node::{Content, Header, Node};
use crate::rng::Rng;

/// A run of boxes inside a path.
pub fn soup(path: &str, rng: &mut Rng) -> Vec<Node> {
    let most = if path.is_empty() { 12 } else { 4 };
    (0..rng.below(most)).map(|_| any_box(path, rng)).collect()
}

fn any_box(path: &str, rng: &mut Rng) -> Node {
    let kind = if rng.chance(5) { rng.u32().to_be_bytes() } else { *rng.pick(&KINDS) };
    let inside = join(path, &kind);
    let content = if is_container(&inside) {
        Content::Boxes(soup(&inside, rng))
    } else {
        let len = rng.pick(&[0, 0, 1, 8, 30]);
        Content::Bytes(rng.bytes(len))
    };
    let header = if rng.chance(20) { Header::Long } else { Header::Short };
    Node { kind, header, content }
}
