//! A track in pieces through the wrapper: the stored samples, however they are cut, and the bounds of rules 1 and 29.
#![cfg(linked)]

use flangemint::{check_track, Answer, Pieces, Refusal, MAX_BYTES, MAX_GATHERED, TRACK_ROOM};
use std::fs;
use std::io::Write;

/// Every track of the stored samples that are well-framed bundles.
fn tracks() -> Vec<Vec<u8>> {
    let folder = concat!(env!("CARGO_MANIFEST_DIR"), "/../../samples");
    let mut tracks = Vec::new();
    for entry in fs::read_dir(folder).unwrap() {
        let path = entry.unwrap().path();
        if path.extension().is_none_or(|name| name != "bundle") {
            continue;
        }
        let bundle = fs::read(path).unwrap();
        let mut rest = &bundle[..];
        while let Some(head) = rest.first_chunk::<6>() {
            let length = u32::from_be_bytes(head[2..].try_into().unwrap()) as usize;
            let Some(track) = rest.get(6..6 + length) else { break };
            tracks.push(track.to_vec());
            rest = &rest[6 + length..];
        }
    }
    tracks
}

/// What the track job and its table come to.
fn whole(track: &[u8]) -> Answer {
    let mut table = [0; TRACK_ROOM];
    let verdict = check_track(track, &mut table);
    let last = if verdict.is_accepted() { table[verdict.count as usize] } else { 0 };
    Answer { verdict, first: table[0], last }
}

fn cut<'a>(pieces: impl IntoIterator<Item = &'a [u8]>) -> Answer {
    let mut all = Pieces::new();
    pieces.into_iter().for_each(|piece| all.feed(piece));
    all.finish()
}

#[test]
fn samples_however_they_are_cut() {
    let tracks = tracks();
    assert!(tracks.len() > 20, "{} tracks", tracks.len());
    for track in tracks {
        let expected = whole(&track);
        assert_eq!(cut([&track[..]]), expected);
        for length in [1, 2, 3, 7, 8, 9, 100, 1000, 65_536] {
            assert_eq!(cut(track.chunks(length)), expected, "pieces of {length}");
        }
        for at in 0..track.len().min(900) {
            let (front, back) = track.split_at(at);
            assert_eq!(cut([front, &[], back]), expected, "cut at {at}");
        }
    }
}

/// An answer in between is that of the bytes until then, and a clone goes on by itself.
#[test]
fn finish_changes_nothing() {
    let track = &tracks()[0];
    let mut pieces = Pieces::new();
    assert_eq!(pieces.finish().verdict.refusal(), Some(Refusal::TopLevelOrder));
    for (nth, piece) in track.chunks(97).enumerate() {
        let clone = pieces.clone();
        pieces.feed(piece);
        assert_eq!(pieces.finish(), whole(&track[..(97 * (nth + 1)).min(track.len())]));
        assert_eq!(clone.finish(), whole(&track[..97 * nth]));
    }
}

#[test]
fn written_to() {
    let track = &tracks()[0];
    let mut pieces = Pieces::default();
    assert_eq!(pieces.write(track).unwrap(), track.len());
    assert_eq!(pieces.write(&[]).unwrap(), 0);
    pieces.flush().unwrap();
    assert_eq!(pieces.finish(), whole(track));
}

/// Rule 29 is by the size field, for three types of the top level.
#[test]
fn large_boxes() {
    let size = |more: usize| ((MAX_GATHERED + more) as u32).to_be_bytes();
    let answer = |more, kind: &[u8; 4]| cut([&b"\0\0\0\x08free"[..], &size(more), kind]).verdict;
    for kind in [b"ftyp", b"moov", b"moof"] {
        assert_eq!((answer(0, kind).number, answer(0, kind).place), (4, 8));
        assert_eq!((answer(1, kind).number, answer(1, kind).place), (29, 8));
        assert_eq!(answer(1, kind).refusal(), Some(Refusal::LargeBox));
    }
    for kind in [b"mdat", b"free", b"traf"] {
        assert_eq!(answer(1, kind).number, 4);
    }
    let long = [&b"\0\0\0\x01moof"[..], &(MAX_GATHERED as u64 + 1).to_be_bytes()].concat();
    assert_eq!(cut(long.chunks(5)).verdict.number, 29);
}

/// A gibibyte is judged, a byte more is not, wherever the pieces end.
#[test]
fn around_the_limit() {
    let size = (MAX_BYTES as u32).to_be_bytes();
    let zeros = vec![0; 1 << 20];
    for (last, number) in [(7, 4), (8, 6), (9, 1), (1000, 1)] {
        let mut pieces = Pieces::new();
        pieces.feed(&size);
        pieces.feed(b"free");
        (1..MAX_BYTES / zeros.len()).for_each(|_| pieces.feed(&zeros));
        pieces.feed(&zeros[..zeros.len() - 16]);
        pieces.feed(&zeros[..last]);
        assert_eq!(pieces.finish().verdict.number, number, "{last}");
        if number == 1 {
            pieces.feed(b"\0\0\0\x08free");
            assert_eq!(pieces.finish().verdict.refusal(), Some(Refusal::TooLong));
        }
    }
}
