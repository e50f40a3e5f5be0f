//! Rules 2 to 6, and the index.

use super::{t_accepted, track_t, List};
use crate::bundle::bundle;
use crate::cases::{Answer, Job};
use crate::damage::framing::MAX_BOXES;
use crate::layout::steps;
use crate::node::{self, Header, Kind, Node};

impl List {
    /// Slices of a few bytes.
    pub fn smallest(&mut self) {
        self.track("no bytes", vec![], 6, 0);
        self.track("7 bytes", vec![0; 7], 2, 0);
        for (size, number) in [(8, 6), (7, 3), (9, 4), (1, 2), (0, 3), (2, 3)] {
            self.track(&format!("8 bytes, free, size {size}"), short(size), number, 0);
        }
        let most = u64::MAX;
        for (size, number) in [(16, 6), (most, 4), (15, 3), (17, 4), (0, 3), (most - 15, 4)] {
            self.track(&format!("16 bytes, free, long size {size}"), long(size), number, 0);
        }
        self.track("15 bytes, free, long size 16", long(16)[..15].to_vec(), 2, 0);
        self.track("7 bytes after free", [short(8), vec![0; 7]].concat(), 2, 8);
        // Offset plus size wraps to 7 here, which looks short.
        let wraps = [short(8), long(most)].concat();
        self.index("free, then long size 2^64 - 1", wraps.clone(), 4, 8);
        self.track("free, then long size 2^64 - 1", wraps, 4, 8);
    }

    /// Sizes around the length of a header, and T cut at every byte.
    pub fn cut(&mut self) {
        for size in 0..18 {
            let (number, place) = match size {
                ..8 => (3, 0),
                8..11 => (3, size),
                _ => (2, size),
            };
            let bytes = [short(size), vec![0; 10]].concat();
            self.index(&format!("18 bytes, size {size}"), bytes, number, place.into());
        }
        for size in 0..18 {
            let (number, place) = if size < 16 { (3, 0) } else { (2, size) };
            let bytes = [long(size), vec![0; 2]].concat();
            self.index(&format!("18 bytes, long size {size}"), bytes, number, place);
        }
        self.index("18 bytes, the largest size", [short(u32::MAX), vec![0; 10]].concat(), 4, 0);
        self.index("18 bytes, the largest long size", [long(u64::MAX), vec![0; 2]].concat(), 4, 0);

        let boxes = track_t();
        let bytes = node::bytes(&boxes);
        let mut start = 0;
        for (nth, cut) in boxes.iter().enumerate() {
            for left in 0..cut.size() {
                let expected = match left {
                    0 => Answer::listed(node::rows(&boxes[..nth])),
                    1..8 => Answer::refused(2, start as u64),
                    _ => Answer::refused(4, start as u64),
                };
                let kept = start + left;
                self.add(&format!("T cut at {kept}"), Job::Index, bytes[..kept].to_vec(), expected);
            }
            start += cut.size();
        }
    }

    fn index(&mut self, name: &str, bytes: Vec<u8>, number: u64, place: u64) {
        self.add(name, Job::Index, bytes, Answer::refused(number, place));
    }

    /// Rule 6.
    pub fn order(&mut self) {
        let free = || Node::leaf(b"free", vec![]);
        let insert = |at: usize, node: Node| move |boxes: &mut Vec<Node>| boxes.insert(at, node);
        let remove = |at: usize| move |boxes: &mut Vec<Node>| drop(boxes.remove(at));
        self.boxes_refused("free before ftyp", 6, &steps("free"), insert(0, free()));
        self.boxes_refused("no ftyp", 6, &steps("moov"), remove(0));
        self.boxes_refused("no moov", 6, &steps("moof"), remove(1));
        self.boxes_refused("free in a pair", 6, &steps("free"), insert(3, free()));
        self.boxes_refused("moof after moof", 6, &[(*b"moof", 1)], remove(3));
        self.boxes_refused("mdat without moof", 6, &steps("mdat"), remove(2));
        let second = |boxes: &mut Vec<Node>| boxes.push(boxes[1].clone());
        self.boxes_refused("second moov", 6, &[(*b"moov", 1)], second);

        let stray = Node::bare(vec![0; 3]);
        let place = [(*b"moov", 1), (stray.kind, 0)];
        self.boxes_refused("badly framed second moov", 2, &place, |boxes| {
            second(boxes);
            boxes[6].boxes().push(stray);
        });
        let place = [(*b"moov", 0), (*b"    ", 0)];
        self.boxes_refused("broken mdhd, later bad framing", 2, &place, |boxes| {
            node::at(boxes, &steps("moov/trak/mdia/mdhd")).body().clear();
            boxes[1].boxes().push(Node::bare(vec![0; 1]));
        });

        for at in [1, 2, 4, 6] {
            self.boxes_accepted(&format!("free as box {at}"), insert(at, free()));
        }
        for (kept, name) in [(1, "ftyp alone"), (2, "header alone"), (5, "lone last moof")] {
            let bytes = node::bytes(&track_t()[..kept]);
            let end = bytes.len() as u64;
            self.track(name, bytes, 6, end);
        }
    }

    /// Document 01's smallest slices, T, and containers where they are none.
    pub fn indexes(&mut self) {
        self.add("no bytes", Job::Index, vec![], Answer::default());
        let one = |size| listed(&[(0, size, b"free", 0)]);
        self.add("8 bytes, free", Job::Index, short(8), one(8));
        self.add("16 bytes, free, long size 16", Job::Index, long(16), one(16));
        self.index("7 bytes", vec![0; 7], 2, 0);
        for (size, number) in [(7, 3), (9, 4), (1, 2)] {
            self.index(&format!("8 bytes, free, size {size}"), short(size), number, 0);
        }
        self.index(&format!("16 bytes, free, long size {}", u64::MAX), long(u64::MAX), 4, 0);
        let mut trak = Node::container(b"trak", vec![Node::leaf(b"moov", vec![0; 3])]);
        trak.header = Header::Long;
        let boxes = [Node::container(b"moov", vec![trak]), Node::leaf(b"trak", vec![1; 5])];
        let rows =
            [(0, 35, b"moov", 0), (8, 27, b"trak", 1), (24, 11, b"moov", 2), (35, 13, b"trak", 0)];
        self.add("containers by path", Job::Index, node::bytes(&boxes), listed(&rows));
        let t = track_t();
        let rows = node::rows(&t);
        self.add("T", Job::Index, node::bytes(&t), Answer::listed(rows));
    }

    /// Rule 5, which takes long slices: the last box that is allowed, one more, and stray bytes.
    pub fn many_boxes(&mut self) {
        const MOST: usize = MAX_BOXES;
        const OVER: usize = MOST + 1;
        const LESS: usize = MOST - 1;
        self.boxes_accepted(&format!("{MOST} boxes"), |boxes| node::fill_up(boxes, MOST));
        let mut boxes = track_t();
        node::fill_up(&mut boxes, OVER);
        let bytes = node::bytes(&boxes);
        let place = node::place_of_nth(&boxes, MOST).expect("a box too many");
        self.track(&format!("{OVER} boxes"), bytes.clone(), 5, place);

        let expected = Answer::refused(5, place).of_track(1);
        let set = bundle(&[node::bytes(&track_t()), bytes.clone()]);
        self.add(&format!("{OVER} boxes in track 1"), Job::Set, set, expected);
        let mut half = track_t();
        node::fill_up(&mut half, MOST / 2 + 100);
        let set = bundle(&[node::bytes(&half), node::bytes(&half)]);
        self.add(&format!("{} boxes in two tracks", MOST + 200), Job::Set, set, t_accepted());

        for (after, number) in [(MOST, 5), (LESS, 2)] {
            for (stray, name) in [(1, "a stray byte"), (7, "seven stray bytes")] {
                let place = place as usize - 8 * (MOST - after);
                let bytes = [&bytes[..place], &vec![0; stray]].concat();
                self.track(&format!("{name} after {after} boxes"), bytes, number, place as u64);
            }
        }

        // No box is left to look for inside it, so that rule 6 has its turn.
        let mut boxes = track_t();
        node::fill_up(&mut boxes, LESS);
        boxes.push(Node::container(b"moof", vec![]));
        let bytes = node::bytes(&boxes);
        let end = bytes.len() as u64;
        self.track(&format!("an empty moof as box {MOST}"), bytes, 6, end);
    }

    /// Rule 5 in the index.
    pub fn many_rows(&mut self) {
        const MOST: usize = MAX_BOXES;
        let mut boxes: Vec<Node> = Vec::new();
        node::fill_up(&mut boxes, MOST);
        let all = Answer::listed(node::rows(&boxes));
        let bytes = node::bytes(&boxes);
        let end = bytes.len() as u64;
        let stray = [&bytes[..], &[0]].concat();
        self.index(&format!("a stray byte after {MOST} boxes"), stray, 5, end);
        let over = [&bytes[..], &short(8)].concat();
        self.index(&format!("{} boxes", MOST + 1), over, 5, end);
        self.add(&format!("{MOST} boxes"), Job::Index, bytes, all);

        boxes.pop();
        boxes.push(Node::container(b"moov", vec![Node::leaf(b"free", vec![])]));
        self.index(&format!("a child of box {MOST}"), node::bytes(&boxes), 5, end);
    }
}

fn short(size: u32) -> Vec<u8> {
    [&size.to_be_bytes(), &b"free"[..]].concat()
}

fn long(size: u64) -> Vec<u8> {
    [&[0, 0, 0, 1], &b"free"[..], &size.to_be_bytes()].concat()
}

fn listed(rows: &[(u64, u64, &Kind, u64)]) -> Answer {
    let number = |kind: &Kind| u64::from(u32::from_be_bytes(*kind));
    let row = |(at, size, kind, depth): &(u64, u64, &Kind, u64)| [*at, *size, number(kind), *depth];
    Answer::listed(rows.iter().map(row).collect())
}
