//! Tables as long as the bytes ask for are never too short: tried on the smallest boxes and chunks that there are.
#![cfg(linked)]

use flangemint::{check_index, check_track, index_room, track_room, Refusal};
use flangemint::{INDEX_ROOM, MAX_BOXES, TRACK_ROOM};

fn boxed(kind: &[u8; 4], body: &[u8]) -> Vec<u8> {
    let size = u32::try_from(8 + body.len()).unwrap();
    [&size.to_be_bytes()[..], kind, body].concat()
}

/// A box with these numbers, of four bytes each, and then zeros.
fn filled(kind: &[u8; 4], numbers: &[u32], zeros: usize) -> Vec<u8> {
    let numbers: Vec<u8> = numbers.iter().flat_map(|number| number.to_be_bytes()).collect();
    boxed(kind, &[numbers, vec![0; zeros]].concat())
}

/// The shortest `ftyp` and `moov` that the rules take. A sample lasts a tick and has no bytes.
fn least_header() -> Vec<u8> {
    let tables = [
        filled(b"stsd", &[0, 1], 0),
        filled(b"stts", &[0, 0], 0),
        filled(b"stsc", &[0, 0], 0),
        filled(b"stsz", &[0, 0, 0], 0),
        filled(b"stco", &[0, 0], 0),
    ];
    let dinf = boxed(b"dinf", &boxed(b"dref", &[]));
    let minf = [boxed(b"vmhd", &[]), dinf, boxed(b"stbl", &tables.concat())];
    let mdhd = filled(b"mdhd", &[0, 0, 0, 90_000], 8);
    let hdlr = filled(b"hdlr", &[0, 0, u32::from_be_bytes(*b"vide")], 12);
    let mdia = [mdhd, hdlr, boxed(b"minf", &minf.concat())];
    let trak = [filled(b"tkhd", &[0, 0, 0, 1], 68), boxed(b"mdia", &mdia.concat())];
    let mvex = boxed(b"mvex", &filled(b"trex", &[0, 1, 1, 1, 0, 0], 0));
    let moov = [filled(b"mvhd", &[], 100), boxed(b"trak", &trak.concat()), mvex];
    [boxed(b"ftyp", b"\0\0\0\0\0\0\0\0cmfc"), boxed(b"moov", &moov.concat())].concat()
}

/// The shortest chunk that the rules take, a fragment of one tick.
fn least_chunk(start: u32) -> Vec<u8> {
    let tfhd = filled(b"tfhd", &[0x2_0000, 1], 0);
    let traf = [tfhd, filled(b"tfdt", &[0, start], 0), filled(b"trun", &[1, 1, 92], 0)];
    let moof = [filled(b"mfhd", &[0, 0], 0), boxed(b"traf", &traf.concat())];
    [boxed(b"moof", &moof.concat()), boxed(b"mdat", &[])].concat()
}

#[test]
fn boundaries() {
    assert_eq!(least_header().len(), 472);
    let mut track = least_header();
    for chunks in 1..=9359 {
        track.extend(least_chunk(chunks - 1));
        if chunks > 40 && chunks % 936 != 359 {
            continue;
        }
        assert_eq!(track.len(), 472 + 92 * chunks as usize);
        let mut table = vec![0; track_room(track.len())];
        let verdict = check_track(&track, &mut table);
        assert_eq!((verdict.number, verdict.count), (0, u64::from(chunks)));
        assert!(table[..=chunks as usize].iter().copied().eq(0..=u64::from(chunks)));
        let short = &mut table[..chunks as usize];
        assert_eq!(check_track(&track, short).refusal(), Some(Refusal::TableTooShort));
    }
    assert_eq!(track_room(track.len()), TRACK_ROOM);
    assert_eq!(track_room(0), 1);
}

#[test]
fn boxes() {
    for boxes in [0, 1, 2, 1000, MAX_BOXES] {
        let bytes = boxed(b"free", &[]).repeat(boxes);
        assert_eq!(index_room(bytes.len()), 4 * boxes);
        let mut table = vec![0; 4 * boxes];
        let verdict = check_index(&bytes, &mut table);
        assert_eq!((verdict.number, verdict.count), (0, boxes as u64));
    }
    assert_eq!(index_room(8 * MAX_BOXES + 8), INDEX_ROOM);
}
