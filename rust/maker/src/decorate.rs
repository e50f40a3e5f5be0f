//! What no rule minds: boxes to pass over, other orders, long headers.

use crate::draw::{self, Plan};
use crate::layout::{join, named};
use crate::node::{Content, Header, Kind, Node};
use crate::rng::Rng;
use crate::track::{Fill, Track};

/// Types that no rule names, and types that a rule names at some path.
pub const KINDS: [&Kind; 34] = [
    b"free", b"skip", b"uuid", b"sidx", b"emsg", b"prft", b"styp", b"udta", b"mehd", b"meta",
    b"ftyp", b"moov", b"moof", b"mdat", b"mvhd", b"trak", b"mvex", b"tkhd", b"edts", b"mdia",
    b"mdhd", b"hdlr", b"minf", b"dinf", b"stbl", b"stsd", b"trex", b"mfhd", b"traf", b"tfhd",
    b"tfdt", b"trun", b"vmhd", b"stco",
];

/// A box that is passed over inside this path.
pub fn stray(path: &str, rng: &mut Rng) -> Node {
    let kind = loop {
        let kind = if rng.chance(10) { rng.u32().to_be_bytes() } else { *rng.pick(&KINDS) };
        if !named(path).contains(&&kind) {
            break kind;
        }
    };
    let len = rng.pick(&[0, 0, 3, 8, 20]);
    let mut node = Node::leaf(&kind, rng.bytes(len));
    if rng.chance(10) {
        node.header = Header::Long;
    }
    node
}

/// A good track of this plan.
pub fn good(plan: &Plan, rng: &mut Rng) -> Vec<Node> {
    dressed(&draw::track(plan, rng), rng)
}

/// The boxes of a track, dressed up so that a good one stays good.
pub fn dressed(track: &Track, rng: &mut Rng) -> Vec<Node> {
    let mut boxes = track.boxes(&mut Fill::Drawn(rng));
    let style = Style {
        strays: rng.pick(&[0, 0, 10, 40]),
        longs: rng.pick(&[0, 5, 20, 100]),
        shuffled: rng.chance(50),
    };
    style.dress("", &mut boxes, rng);
    track.settle(&mut boxes);
    boxes
}

struct Style {
    /// Boxes to pass over, in a hundred places.
    strays: u64,
    /// Long headers, in a hundred boxes.
    longs: u64,
    shuffled: bool,
}

impl Style {
    fn dress(&self, path: &str, boxes: &mut Vec<Node>, rng: &mut Rng) {
        if self.shuffled && !path.is_empty() {
            shuffle(boxes, rng);
        }
        for mut node in std::mem::take(boxes) {
            // Nothing stands before `ftyp`, nor between a `moof` and its `mdat`.
            let is_bound = path.is_empty() && matches!(&node.kind, b"ftyp" | b"mdat");
            if !is_bound && rng.chance(self.strays) {
                boxes.push(stray(path, rng));
            }
            if rng.chance(self.longs) {
                node.header = Header::Long;
            }
            match &mut node.content {
                Content::Boxes(inside) => self.dress(&join(path, &node.kind), inside, rng),
                Content::Zeros(len) if *len < 4096 => {
                    node.content = Content::Bytes(rng.bytes(*len))
                }
                _ => (),
            }
            boxes.push(node);
        }
        if rng.chance(self.strays) {
            boxes.push(stray(path, rng));
        }
    }
}

/// Any order of boxes, but runs keep theirs.
fn shuffle(boxes: &mut [Node], rng: &mut Rng) {
    let is_run = |node: &Node| node.kind == *b"trun";
    let runs: Vec<Node> = boxes.iter().filter(|node| is_run(node)).cloned().collect();
    rng.shuffle(boxes);
    for (place, run) in boxes.iter_mut().filter(|node| is_run(node)).zip(runs) {
        *place = run;
    }
}
