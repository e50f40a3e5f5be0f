//! What is wrong with a track of the bench.

use maker::node::{Content, Node};

/// What is wrong with a track, seen only after all else has been.
#[derive(Clone, Copy)]
pub enum State {
    Good,
    /// The last chunk ends a tick off: good by itself, rule 28 in a set. Where its last run carries
    /// no durations nothing changes.
    OtherEnd,
    /// In the last data box: rule 22, after every sum.
    SpareByte,
    /// After the last box: rule 2, or 5 in a track of 65,536 boxes.
    StrayByte,
}

impl State {
    pub const ALL: [State; 4] = [State::Good, State::OtherEnd, State::SpareByte, State::StrayByte];

    pub fn name(self) -> &'static str {
        match self {
            State::Good => "good",
            State::OtherEnd => "other end",
            State::SpareByte => "spare byte",
            State::StrayByte => "stray byte",
        }
    }

    /// A good track in this state.
    pub fn applied(self, good: &[Node]) -> Vec<Node> {
        let mut boxes = good.to_vec();
        self.apply(&mut boxes);
        boxes
    }

    fn apply(self, boxes: &mut Vec<Node>) {
        match self {
            State::Good => (),
            State::OtherEnd => {
                let last = |boxes: &mut [Node], kind: &[u8; 4]| {
                    boxes.iter().rposition(|node| node.kind == *kind).expect("a chunk's box")
                };
                let moof = last(boxes, b"moof");
                let traf = last(boxes[moof].boxes(), b"traf");
                let traf = boxes[moof].boxes()[traf].boxes();
                let trun = last(traf, b"trun");
                nudge_duration(traf[trun].body());
            }
            State::SpareByte => {
                let mdat = boxes.iter_mut().rfind(|node| node.kind == *b"mdat");
                match &mut mdat.expect("a data box").content {
                    Content::Zeros(len) => *len += 1,
                    Content::Bytes(bytes) => bytes.push(0),
                    Content::Boxes(_) => panic!("a data box holds no boxes"),
                }
            }
            State::StrayByte => boxes.push(Node::bare(vec![0])),
        }
    }
}

/// Changes the first sample's duration by one, where the run carries durations.
fn nudge_duration(run: &mut [u8]) {
    let flags = u32::from_be_bytes([0, run[1], run[2], run[3]]);
    if flags & 0x100 != 0 {
        let optional = [0x1, 0x4].iter().filter(|bit| flags & **bit != 0).count();
        run[8 + 4 * optional + 3] ^= 1;
    }
}
