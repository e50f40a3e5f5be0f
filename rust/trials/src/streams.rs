//! Stored cases of the program `stream`: a track, how it is cut, and the text that is printed.
//!
//! They are cases of job 4. In place of the table's length stands the length of each piece; 0 is
//! all at once.

use crate::wire;
use maker::examples::{examples, track_t, track_u};
use maker::node::{self, Header, Node};
use maker::pieces::{declared, large_t, BOUNDED};
use maker::track::{Fill, Track, NON_SYNC};
use reference::{pieces_whole, Pieces, PiecesAnswer, Verdict};
use std::collections::BTreeMap;

const JOB: u8 = 4;
/// The lengths of pieces, taken in turn where a case has no own.
const STEPS: [usize; 5] = [1, 7, 8, 4096, 0];
/// Document 01's examples up to this length are taken, one of each number.
const SHORT: usize = 1000;
const OVER: u64 = maker::pieces::LIMIT as u64 + 1;

#[derive(Default)]
pub struct Streams {
    pub cases: Vec<u8>,
    pub expected: String,
    pub names: String,
    pub count: usize,
}

impl Streams {
    /// All of them.
    pub fn make() -> Streams {
        let mut streams = Streams::default();
        streams.smallest();
        streams.good();
        streams.chunks();
        streams.by_number();
        streams.later_faults();
        streams.declared_sizes();
        streams.longest();
        streams
    }

    /// One case; the reference must say the same of the pieces.
    fn add(&mut self, name: &str, bytes: &[u8], step: usize) {
        let answer = pieces_whole(bytes);
        let mut form = Pieces::new();
        bytes.chunks(if step == 0 { usize::MAX } else { step }).for_each(|piece| form.feed(piece));
        assert_eq!(form.finish(), answer, "{name} by {step}");
        wire::put_bytes(JOB, step, bytes, &mut self.cases);
        self.expected += &printed(&answer);
        self.names += &format!("{name}, by {step}\n");
        self.count += 1;
    }

    fn add_by(&mut self, steps: &[usize], name: &str, bytes: &[u8]) {
        steps.iter().for_each(|step| self.add(name, bytes, *step));
    }

    /// The next of `STEPS`.
    fn add_in_turn(&mut self, name: &str, bytes: &[u8]) {
        self.add(name, bytes, STEPS[self.count % STEPS.len()]);
    }

    fn smallest(&mut self) {
        self.add_by(&[0, 1], "no bytes", &[]);
        self.add_by(&[0, 1, 7], "7 bytes", &[0; 7]);
        for size in [8, 7, 9, 1] {
            self.add(&format!("free of {size}"), &declared(b"free", Header::Short, size), 1);
        }
        for size in [16, 15, u64::MAX] {
            self.add(&format!("free of long {size}"), &declared(b"free", Header::Long, size), 8);
        }
    }

    fn good(&mut self) {
        self.add_by(&STEPS, "T", &node::bytes(&track_t()));
        let mut late = Track::example(1);
        late.chunks[0].wide_tfdt = true;
        late.chunks[0].start = (1 << 63) - 1 - 180_000;
        self.add_by(&[1, 0], "the last end that there is", &bytes_of(&late));
        late.chunks[0].start += 1;
        self.add("an end one tick later", &bytes_of(&late), 7);
        self.add("9 fragments", &bytes_of(&Track::example(9)), 8);
        let mut boxes = track_t();
        boxes.push(Node::zeros(b"free", 600));
        self.add("a box behind", &node::bytes(&boxes), 7);
    }

    /// U, which has three chunks in two fragments, and what is refused of it.
    fn chunks(&mut self) {
        self.add_by(&STEPS, "U", &node::bytes(&track_u()));
        let mut late = Track::example_u();
        late.chunks[1].start += 1;
        self.add_by(&[1, 0], "U, second chunk a tick late", &bytes_of(&late));
        let mut unsync = Track::example_u();
        unsync.chunks[0].runs[0].flags |= 0x4;
        unsync.chunks[0].runs[0].first_sample_flags = NON_SYNC;
        self.add_by(&[7, 4096], "U, first chunk non-sync", &bytes_of(&unsync));
        let mut whole = Track::example(40);
        whole.trex.flags = NON_SYNC;
        whole.chunks[0].tfhd_flags |= 0x20;
        self.add_by(&[8, 0], "40 chunks in one fragment", &bytes_of(&whole));
    }

    /// One short example of each number.
    fn by_number(&mut self) {
        let mut by_number = BTreeMap::new();
        for example in examples().into_iter().filter(|example| example.name.starts_with("track ")) {
            let bytes = example.case.bytes;
            if bytes.len() <= SHORT {
                let number = pieces_whole(&bytes).verdict.number;
                by_number.entry(number).or_insert((example.name, bytes));
            }
        }
        for (name, bytes) in by_number.values().skip(1) {
            self.add_in_turn(name, bytes);
        }
    }

    /// T with its second start a tick late, and behind it what is tried before.
    fn later_faults(&mut self) {
        let mut track = Track::example(2);
        track.chunks[1].start += 1;
        let bad = bytes_of(&track);
        self.add_by(&[0, 1, 8], "19", &bad);
        let mdat = declared(b"mdat", Header::Short, 8);
        let moof = declared(b"moof", Header::Short, 8);
        for (name, tail) in [
            ("a stray byte", vec![0]),
            ("size 0", declared(b"free", Header::Short, 0)),
            ("a box beyond the end", declared(b"free", Header::Short, 9)),
            ("a second mdat", mdat.clone()),
            ("a lone moof", moof.clone()),
            ("moof after moof", [moof.clone(), moof.clone()].concat()),
            ("an empty pair", [moof, mdat.clone()].concat()),
            ("a second mdat and a stray byte", [&mdat[..], &[0]].concat()),
            ("a large moof", declared(b"moof", Header::Short, OVER)),
            ("a second mdat and a large ftyp", {
                [mdat, declared(b"ftyp", Header::Long, OVER)].concat()
            }),
        ] {
            let bytes = [&bad[..], &tail].concat();
            self.add_in_turn(&format!("19, then {name}"), &bytes);
            self.add_in_turn(&format!("19, then {name}"), &bytes);
        }
    }

    /// Rule 29 and its limit, by the header alone.
    fn declared_sizes(&mut self) {
        let t = node::bytes(&track_t());
        for kind in &BOUNDED {
            let name = kind.escape_ascii();
            for (header, size) in [
                (Header::Short, OVER),
                (Header::Long, OVER),
                (Header::Short, OVER - 1),
                (Header::Long, u64::MAX),
            ] {
                let head = declared(kind, header, size);
                self.add_in_turn(&format!("{name} declares {size}, {header:?}"), &head);
            }
            let second = [&t[..], &declared(kind, Header::Short, OVER)].concat();
            self.add_in_turn(&format!("a second {name} declares {OVER}"), &second);
            let inside =
                [declared(b"moov", Header::Short, 16), declared(kind, Header::Short, OVER)]
                    .concat();
            self.add_in_turn(&format!("{name} inside moov declares {OVER}"), &inside);
        }
        let head = [&t[..], &declared(b"mdat", Header::Short, OVER)].concat();
        self.add("mdat has no limit", &head, 7);
    }

    /// Boxes that are as long as may be, and as many as may be.
    fn longest(&mut self) {
        for (kind, header, front, step) in [
            (b"ftyp", Header::Short, true, 1),
            (b"moov", Header::Long, true, 7),
            (b"moof", Header::Short, false, 4096),
        ] {
            let name = format!("{} of 32768", kind.escape_ascii());
            self.add(&name, &node::bytes(&large_t(kind, header, 32_768, front)), step);
        }
        let mut boxes = track_t();
        node::fill_up(&mut boxes, reference::MAX_BOXES);
        boxes.push(Node::bare(declared(b"moof", Header::Short, OVER)));
        let bytes = node::bytes(&boxes);
        let most = reference::MAX_BOXES;
        let end = bytes.len() - 8;
        self.add(&format!("{most} boxes"), &bytes[..end], 0);
        self.add(&format!("a large moof after {most} boxes"), &bytes, 8);
        self.add(&format!("three bytes after {most} boxes"), &bytes[..end + 3], 4096);
        self.add(&format!("three bytes after {} boxes", most - 1), &bytes[..end - 5], 7);
        let moof =
            [declared(b"moof", Header::Short, 16), declared(b"free", Header::Short, 8)].concat();
        self.add(&format!("a child of box {most}"), &[&bytes[..end - 8], &moof].concat(), 9);
    }
}

fn bytes_of(track: &Track) -> Vec<u8> {
    node::bytes(&track.boxes(&mut Fill::Zeros))
}

/// What the program prints.
fn printed(answer: &PiecesAnswer) -> String {
    let PiecesAnswer { verdict, first, last } = answer;
    let Verdict { number, track, place, count, timescale } = verdict;
    match number {
        0 => {
            format!("accepted tracks 1 fragments {count} timescale {timescale}\n{first}\n{last}\n")
        }
        _ => format!("refused {number} track {track} at {place}\n"),
    }
}

#[cfg(test)]
mod tests {
    use super::*;

    /// The two kinds of text, and every number that a short track can have.
    #[test]
    fn texts() {
        let streams = Streams::make();
        let accepted = "accepted tracks 1 fragments 2 timescale 90000\n0\n360000\n";
        assert!(streams.expected.starts_with("refused 6 track 0 at 0\n"));
        assert!(streams.expected.contains(accepted));
        assert_eq!(streams.names.lines().count(), streams.count);
        for number in (2..=22).chain([29]) {
            let line = format!("refused {number} track 0 at ");
            assert!(streams.expected.contains(&line), "{number}");
        }
    }
}
