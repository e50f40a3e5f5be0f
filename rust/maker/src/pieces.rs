//! Cases of the form that takes pieces: those of the track check, and boxes around its own limit.

use crate::blind;
use crate::cases::Answer;
use crate::damage::aimed;
use crate::damage::framing::MAX_BOXES;
use crate::decorate::{dressed, good};
use crate::draw::{self, Plan};
use crate::mix::{accepted, track_boxes, SELDOM};
use crate::node::{self, Content, Header, Kind, Node};
use crate::rng::Rng;
use crate::soup::soup;
use crate::track::{Fill, Track};

/// Rule 29's limit, and the types that it bounds at the top level.
pub const LIMIT: usize = 32_768;
pub const BOUNDED: [Kind; 3] = [*b"ftyp", *b"moov", *b"moof"];

/// Bytes, and the answer where the way they were made decides it.
pub type Drawn = (Vec<u8>, Option<Answer>);

/// Draws a case.
pub fn draw(rng: &mut Rng) -> Drawn {
    let (boxes, expected) = match rng.below(100) {
        _ if rng.chance(SELDOM) => known(crowded(rng)),
        0..=50 => known(track_boxes(rng)),
        51..=56 => (soup("", rng), None),
        57..=72 => known(at_limit(rng)),
        73..=81 => known(cut_off(rng)),
        82..=92 => spoilt_late(rng),
        _ => misplaced(rng),
    };
    let expected = expected.map(|expected| with_limit(expected, &boxes));
    let mut bytes = node::bytes(&boxes);
    if rng.chance(15) {
        blind::damage(&mut bytes, rng);
        return (bytes, None);
    }
    (bytes, expected)
}

fn known((boxes, expected): (Vec<Node>, Answer)) -> (Vec<Node>, Option<Answer>) {
    (boxes, Some(expected))
}

/// The answer where rule 29 is added to those that it was made for.
fn with_limit(expected: Answer, boxes: &[Node]) -> Answer {
    let is_over = |node: &Node| BOUNDED.contains(&node.kind) && node.size() > LIMIT;
    let Some(first) = boxes.iter().position(is_over) else { return expected };
    let place = node::total_size(&boxes[..first]) as u64;
    // Where no rule of framing is broken, 29 comes first.
    let comes_first = match expected.number {
        2 | 3 | 5 | 29 => expected.place <= place,
        4 => expected.place < place,
        _ => false,
    };
    if comes_first {
        expected
    } else {
        Answer::refused(29, place)
    }
}

/// A whole size at which something changes, or one near it.
fn size_at_limit(rng: &mut Rng) -> usize {
    let near = LIMIT - 20 + rng.index(40);
    let over = rng.pick(&[40_000, 65_536, 100_000]);
    rng.pick(&[LIMIT - 1, LIMIT, LIMIT, LIMIT, LIMIT + 1, LIMIT + 8, near, over])
}

fn some_header(rng: &mut Rng) -> Header {
    rng.pick(&[Header::Short, Header::Short, Header::Long])
}

/// A good track but for one large box.
fn at_limit(rng: &mut Rng) -> (Vec<Node>, Answer) {
    let plan = Plan::draw(rng);
    let track = draw::track(&plan, rng);
    let mut boxes = dressed(&track, rng);
    let kind = rng.pick(&BOUNDED);
    let nth = if kind == *b"moof" { rng.index(track.chunks.len()) } else { 0 };
    let large = node::at(&mut boxes, &[(kind, nth)]);
    large.header = some_header(rng);
    grow(large, size_at_limit(rng), rng.chance(50));
    let is_odd = kind == *b"ftyp" && !large.size().is_multiple_of(4);
    track.settle(&mut boxes);
    (boxes, if is_odd { Answer::refused(8, 0) } else { accepted(&plan) })
}

/// Makes a box as long as that, if it is shorter by enough: before what it holds, or behind.
fn grow(node: &mut Node, size: usize, front: bool) {
    let missing = size.saturating_sub(node.size());
    match &mut node.content {
        Content::Boxes(inside) if missing >= 8 => {
            let at = if front { 0 } else { inside.len() };
            inside.insert(at, Node::leaf(b"free", vec![0; missing - 8]));
        }
        Content::Bytes(body) => {
            // The first 8 bytes of `ftyp` are no brands.
            let at = if front { body.len().min(8) } else { body.len() };
            body.splice(at..at, vec![0; missing]);
        }
        _ => (),
    }
}

/// T with its first box of a type that rule 29 bounds as long as that.
pub fn large_t(kind: &Kind, header: Header, size: usize, front: bool) -> Vec<Node> {
    let track = Track::example(2);
    let mut boxes = track.boxes(&mut Fill::Zeros);
    let large = node::at(&mut boxes, &[(*kind, 0)]);
    large.header = header;
    grow(large, size, front);
    track.settle(&mut boxes);
    boxes
}

/// A header that declares so many bytes; the long one where they need it.
pub fn declared(kind: &Kind, header: Header, size: u64) -> Vec<u8> {
    match (header, u32::try_from(size)) {
        (Header::Short, Ok(size)) => [&size.to_be_bytes()[..], kind].concat(),
        _ => [&[0, 0, 0, 1], &kind[..], &size.to_be_bytes()].concat(),
    }
}

/// A good track, or a part of one, and then a box whose end doesn't come.
fn cut_off(rng: &mut Rng) -> (Vec<Node>, Answer) {
    let plan = Plan::draw(rng);
    let mut boxes = good(&plan, rng);
    let any = rng.index(boxes.len() + 1);
    let kept = rng.pick(&[boxes.len(), any]);
    boxes.truncate(kept);
    let (bare, number) = unfinished(rng);
    let expected = Answer::refused(number, node::total_size(&boxes) as u64);
    boxes.push(bare);
    (boxes, expected)
}

/// The start of a box whose end is missing, and the number for it.
fn unfinished(rng: &mut Rng) -> (Node, u64) {
    let near = size_at_limit(rng) as u64;
    let far = rng.pick(&[1 << 20, 1 << 31, u64::from(u32::MAX), 1 << 32, 1 << 63, u64::MAX]);
    let size = rng.pick(&[100, near, near, near, far]);
    let kind = rng.pick(&[BOUNDED[0], BOUNDED[1], BOUNDED[2], *b"mdat", *b"free"]);
    let mut bytes = declared(&kind, some_header(rng), size);
    let missing = (size - bytes.len() as u64).min(100_000) as usize;
    let any = rng.index(missing);
    let come = rng.pick(&[0, 1, missing - 1, any]);
    bytes.extend(rng.bytes(come));
    let is_over = BOUNDED.contains(&kind) && size > LIMIT as u64;
    (Node::bare(bytes), if is_over { 29 } else { 4 })
}

/// A track that breaks some rule of 6 to 22, or none, and behind it a fault that is tried before.
fn spoilt_late(rng: &mut Rng) -> (Vec<Node>, Option<Answer>) {
    let number = rng.within(5..=22);
    let plan = Plan::draw(rng);
    let (mut boxes, broken) = match number {
        5 => (good(&plan, rng), None),
        _ => {
            let damaged = aimed(number, &plan, rng);
            (damaged.boxes, Some(damaged.place).filter(|_| number == 6))
        }
    };
    let end = node::total_size(&boxes) as u64;
    // Of two breaks of rule 6 the first decides; boxes that ran out may go on.
    let disorder = |place: u64| match broken {
        Some(before) if before == end => None,
        Some(before) => Some(Answer::refused(6, before)),
        None => Some(Answer::refused(6, place)),
    };
    let expected = match rng.below(6) {
        _ if rng.chance(SELDOM) => {
            node::fill_up(&mut boxes, MAX_BOXES + 1);
            node::place_of_nth(&boxes, MAX_BOXES).map(|place| Answer::refused(5, place))
        }
        0 => {
            let len = 1 + rng.index(7);
            boxes.push(Node::bare(rng.bytes(len)));
            Some(Answer::refused(2, end))
        }
        1 => {
            let size = rng.pick(&[0, 2, 7]);
            boxes.push(Node::bare([&[0, 0, 0, size], &rng.bytes(4)[..]].concat()));
            Some(Answer::refused(3, end))
        }
        2 => {
            let (bare, number) = unfinished(rng);
            boxes.push(bare);
            Some(Answer::refused(number, end))
        }
        3 => {
            boxes.push(Node::leaf(&rng.pick(&[*b"ftyp", *b"mdat"]), rng.bytes(4)));
            disorder(end)
        }
        4 => {
            boxes.push(Node::container(b"moov", Vec::new()));
            disorder(end)
        }
        _ => {
            // A `moof` behind the last, or nothing.
            let moofs = rng.within(1..=2);
            boxes.extend((0..moofs).map(|_| Node::container(b"moof", Vec::new())));
            disorder(end + 8)
        }
    };
    (boxes, expected)
}

/// A box that rule 29 bounds where no such box belongs.
fn misplaced(rng: &mut Rng) -> (Vec<Node>, Option<Answer>) {
    let (mut boxes, _) = track_boxes(rng);
    let kind = rng.pick(&BOUNDED);
    let mut node = match &kind {
        b"ftyp" => Node::leaf(&kind, Vec::new()),
        _ => Node::container(&kind, Vec::new()),
    };
    node.header = some_header(rng);
    if rng.chance(60) {
        grow(&mut node, size_at_limit(rng), false);
    }
    let like = node::position(&boxes, (kind, 0));
    let at = rng.index(boxes.len() + 1);
    // Often a copy of a box, beside it.
    match like {
        Some(like) if rng.chance(40) => boxes.insert(like + 1, boxes[like].clone()),
        _ => boxes.insert(at, node),
    }
    (boxes, None)
}

/// As many boxes as there may be, nearly all of them at the top level, and some bytes behind.
fn crowded(rng: &mut Rng) -> (Vec<Node>, Answer) {
    let plan = Plan::draw(rng);
    let mut boxes = good(&plan, rng);
    let expected = accepted(&plan);
    let total = rng.pick(&[MAX_BOXES - 1, MAX_BOXES, MAX_BOXES, MAX_BOXES + 1]);
    node::fill_up(&mut boxes, total);
    let end = node::total_size(&boxes) as u64;
    let behind = match rng.below(4) {
        0 => Some((rng.bytes(1), 2)),
        1 => Some((declared(b"free", some_header(rng), 17), 4)),
        2 => {
            let kind = rng.pick(&BOUNDED);
            Some((declared(&kind, some_header(rng), LIMIT as u64 + 1), 29))
        }
        _ => None,
    };
    let expected = match behind {
        Some((bytes, number)) => {
            boxes.push(Node::bare(bytes));
            Answer::refused(number, end)
        }
        None => expected,
    };
    match node::place_of_nth(&boxes, MAX_BOXES) {
        Some(place) => (boxes, Answer::refused(5, place)),
        None => (boxes, expected),
    }
}

#[cfg(test)]
mod tests {
    use super::*;

    /// A case is known by its seed and number: made twice, it is the same.
    #[test]
    fn cases_can_be_made_again() {
        for number in 0..50 {
            let again = || draw(&mut Rng::of_case(9, number)).0;
            assert_eq!(again(), again());
        }
    }
}
