//! Request 1: the answer from the joined bytes and the answer piece by piece.

use maker::cases::Answer;
use maker::cuts::{cut, steps};
use maker::examples::{examples, track_t, track_u};
use maker::node::{self, Header, Node};
use maker::pieces::{declared, draw, large_t, BOUNDED, LIMIT};
use maker::rng::Rng;
use maker::track::{Fill, Track};
use reference::{pieces_whole, Pieces, PiecesAnswer, Verdict};

fn piece_by_piece<'a>(pieces: impl IntoIterator<Item = &'a [u8]>) -> PiecesAnswer {
    let mut form = Pieces::new();
    pieces.into_iter().for_each(|piece| form.feed(piece));
    form.finish()
}

fn answered(expected: &Answer) -> PiecesAnswer {
    let Answer { number, track, place, count, timescale, ref table } = *expected;
    let verdict = Verdict { number, track, place, count, timescale };
    let [first, last] = [table.first(), table.last()].map(|tick| tick.copied().unwrap_or(0));
    PiecesAnswer { verdict, first, last }
}

/// Both ways give this answer, however the bytes are cut.
fn check(name: &str, bytes: &[u8], expected: &Answer) {
    let expected = answered(expected);
    assert_eq!(pieces_whole(bytes), expected, "{name}");
    for step in [1, 7, 8, 9, 16, 4096, 32_768, usize::MAX] {
        assert_eq!(piece_by_piece(steps(bytes, step)), expected, "{name} by {step}");
    }
}

fn refused(name: &str, bytes: &[u8], number: u64, place: usize) {
    check(name, bytes, &Answer::refused(number, place as u64));
}

fn t() -> Vec<u8> {
    node::bytes(&track_t())
}

fn t_accepted() -> Answer {
    Answer::accepted(90_000, vec![0, 180_000, 360_000])
}

#[test]
fn examples_of_the_paper() {
    check("T", &t(), &t_accepted());
    check("U", &node::bytes(&track_u()), &Answer::accepted(90_000, vec![0, 360_000, 540_000]));
    refused("no bytes", &[], 6, 0);
    refused("7 bytes", &[0; 7], 2, 0);
    for (size, number) in [(8, 6), (7, 3), (9, 4), (1, 2)] {
        refused(&format!("size {size}"), &declared(b"free", Header::Short, size), number, 0);
    }
    for (size, number) in [(16, 6), (15, 3), (17, 4), (u64::MAX, 4)] {
        refused(&format!("long size {size}"), &declared(b"free", Header::Long, size), number, 0);
    }
}

/// Rule 29: by the size field alone, wherever the box stands at the top level.
#[test]
fn declared_sizes() {
    let end = t().len();
    for kind in &BOUNDED {
        for header in [Header::Short, Header::Long] {
            for (size, number) in
                [(32_767, 4), (32_768, 4), (32_769, 29), (u64::from(u32::MAX), 29)]
            {
                let name = format!("{} {header:?} {size}", kind.escape_ascii());
                let header = declared(kind, header, size);
                refused(&name, &header, number, 0);
                refused(&name, &[t(), header].concat(), number, end);
            }
        }
        refused("2^64 - 1", &declared(kind, Header::Long, u64::MAX), 29, 0);
        // The size is not known before the header is whole.
        refused("cut in the long size", &declared(kind, Header::Long, u64::MAX)[..15], 2, 0);
        // A box inside a container has no such limit.
        let inside = declared(kind, Header::Short, 40_000);
        let moov = [declared(b"moov", Header::Short, 16), inside].concat();
        refused("inside a moov", &moov, 4, 8);
    }
    for kind in [b"mdat", b"free", b"trak"] {
        refused("no limit", &declared(kind, Header::Short, 40_000), 4, 0);
        let mut boxes = track_t();
        boxes.push(Node::zeros(b"free", 100_000));
        check("a long box behind", &node::bytes(&boxes), &t_accepted());
    }
}

/// Whole boxes on either side of the limit, with either header.
#[test]
fn boxes_at_the_limit() {
    for kind in &BOUNDED {
        for header in [Header::Short, Header::Long] {
            for (size, front) in [(32_768, true), (32_768, false), (32_772, false)] {
                let boxes = large_t(kind, header, size, front);
                let place = node::place(&boxes, &[(*kind, 0)]);
                let expected = if size > LIMIT { Answer::refused(29, place) } else { t_accepted() };
                let name = format!("{} {header:?} {size}", kind.escape_ascii());
                check(&name, &node::bytes(&boxes), &expected);
            }
        }
    }
}

/// T with its second `tfdt` a tick late: 19 waits, and whatever is tried before it wins.
#[test]
fn later_faults_win() {
    let mut track = Track::example(2);
    track.chunks[1].start += 1;
    let boxes = track.boxes(&mut Fill::Zeros);
    let bad = node::bytes(&boxes);
    let end = bad.len();
    let tfdt = node::place(&boxes, &[(*b"moof", 1), (*b"traf", 0), (*b"tfdt", 0)]) as usize;
    refused("19", &bad, 19, tfdt);
    let with = |tail: &[u8]| [&bad[..], tail].concat();
    refused("a stray byte", &with(&[0]), 2, end);
    refused("size 0", &with(&declared(b"free", Header::Short, 0)), 3, end);
    refused("beyond the end", &with(&declared(b"free", Header::Short, 9)), 4, end);
    refused("29", &with(&declared(b"moof", Header::Short, 32_769)), 29, end);
    let mdat = declared(b"mdat", Header::Short, 8);
    refused("a second mdat", &with(&mdat), 6, end);
    refused("a lone moof", &with(&declared(b"moof", Header::Short, 8)), 6, end + 8);
    let moov = declared(b"moov", Header::Short, 8);
    refused("6, then 6", &with(&[mdat.clone(), moov].concat()), 6, end);
    refused("6, then 2", &with(&[&mdat[..], &[0; 3]].concat()), 2, end + 8);
    let large = declared(b"ftyp", Header::Long, 1 << 40);
    refused("6, then 29", &with(&[mdat, large].concat()), 29, end + 8);
}

/// Rule 5 comes before all others at its place.
#[test]
fn many_boxes() {
    let mut boxes = track_t();
    node::fill_up(&mut boxes, reference::MAX_BOXES);
    let full = node::bytes(&boxes);
    let end = full.len();
    check("as many boxes as there may be", &full, &t_accepted());
    refused("a stray byte", &[&full[..], &[0]].concat(), 5, end);
    refused("29 too", &[full.clone(), declared(b"moof", Header::Short, 40_000)].concat(), 5, end);
    let less = &full[..end - 8];
    refused("29", &[less, &declared(b"moof", Header::Short, 40_000)].concat(), 29, end - 8);
    let moov = [declared(b"moov", Header::Short, 16), declared(b"free", Header::Short, 8)].concat();
    refused("a child too many", &[less, &moov].concat(), 5, end);
}

/// Rule 1 comes before all, and is a matter of the length alone.
#[test]
fn longest_track() {
    let zeros = vec![0; 1 << 20];
    for head in [Vec::new(), t(), declared(b"moof", Header::Short, 1 << 31)] {
        let mut form = Pieces::new();
        form.feed(&head);
        // In T's case the box fills what is left.
        form.feed(&declared(b"free", Header::Short, (1 << 30) - head.len() as u64));
        let mut left = (1 << 30) - 8 - head.len();
        while left > 0 {
            let piece = &zeros[..left.min(zeros.len())];
            form.feed(piece);
            left -= piece.len();
        }
        let at_most = form.finish();
        assert_ne!(at_most.verdict.number, 1);
        assert_eq!(at_most == answered(&t_accepted()), head.len() > 100);
        form.feed(&[]);
        assert_eq!(form.finish(), at_most);
        form.feed(&[0]);
        assert_eq!(form.finish(), answered(&Answer::refused(1, 0)));
    }
    assert_eq!(pieces_whole(&vec![0; (1 << 30) + 1]), answered(&Answer::refused(1, 0)));
}

/// T and U up to any byte, asked after each.
#[test]
fn every_start() {
    for (boxes, boundaries) in
        [(track_t(), vec![0, 180_000, 360_000]), (track_u(), vec![0, 360_000, 540_000])]
    {
        let bytes = node::bytes(&boxes);
        let mut form = Pieces::new();
        for (at, byte) in bytes.iter().enumerate() {
            assert_eq!(form.finish(), pieces_whole(&bytes[..at]), "{at}");
            form.feed(std::slice::from_ref(byte));
        }
        assert_eq!(form.finish(), answered(&Answer::accepted(90_000, boundaries)));
    }
}

/// The track check's examples are answered alike: none of them breaks rule 29.
#[test]
fn examples_of_the_track_check() {
    for example in examples().iter().filter(|example| example.name.starts_with("track ")) {
        let expected = example.case.expected.as_ref().unwrap();
        let whole = pieces_whole(&example.case.bytes);
        assert_eq!(whole, answered(expected), "{}", example.name);
        assert_eq!(piece_by_piece(steps(&example.case.bytes, 50)), whole, "{}", example.name);
    }
}

/// Drawn cases: as made, and the same however they are cut. Every number but 1 is reached.
#[test]
fn drawn_cases() {
    let mut reached = [0u64; 30];
    for number in 0..4000 {
        let mut rng = Rng::of_case(6, number);
        let (bytes, expected) = draw(&mut rng);
        let whole = pieces_whole(&bytes);
        reached[whole.verdict.number as usize] += 1;
        if let Some(expected) = expected {
            assert_eq!(whole, answered(&expected), "case {number}");
        }
        for _ in 0..2 {
            assert_eq!(piece_by_piece(cut(&bytes, &mut rng)), whole, "case {number}");
        }
    }
    for number in (0..=22).chain([29]).filter(|number| *number != 1) {
        assert!(reached[number] >= 5, "{number} was reached {} times", reached[number]);
    }
}
