//! What a player reads of a track that keeps rules 1 to 18, or of its first chunks that do. It
//! shares nothing with the reference.

use std::ops::Range;

const NON_SYNC: u32 = 0x0001_0000;

pub struct Track {
    pub timescale: u32,
    chunks: Vec<Chunk>,
}

pub struct Chunk {
    /// Its `tfdt`.
    pub start: u64,
    pub samples: Vec<Sample>,
    /// Where the data box's own bytes are, counted from the start of the track as samples are.
    pub payload: Range<i64>,
}

#[derive(Clone, Copy)]
pub struct Sample {
    pub at: i64,
    pub size: u32,
    pub duration: u32,
    flags: u32,
}

impl Chunk {
    pub fn is_sync(&self) -> bool {
        self.samples[0].flags & NON_SYNC == 0
    }
}

impl Track {
    /// The chunks of a fragment: one that begins it and all up to the next that begins one.
    pub fn fragment(&self, number: usize) -> Option<&[Chunk]> {
        let begins = |nth: &usize| *nth == 0 || self.chunks[*nth].is_sync();
        let mut firsts = (0..self.chunks.len()).filter(begins).skip(number);
        let first = firsts.next()?;
        Some(&self.chunks[first..firsts.next().unwrap_or(self.chunks.len())])
    }

    pub fn has_long_fragments(&self) -> bool {
        (0..).map_while(|number| self.fragment(number)).any(|chunks| chunks.len() > 1)
    }

    /// The chunks that begin at this place or before.
    pub fn read(track: &[u8], last: u64) -> Track {
        let top = all(Part { bytes: track, at: 0 });
        let moov = one(&top, b"moov").inside();
        let mdhd = one(&one(&one(&moov, b"trak").inside(), b"mdia").inside(), b"mdhd").body;
        let trex = one(&one(&moov, b"mvex").inside(), b"trex").body;
        let defaults = [12, 16, 20].map(|at| trex.u32(at));
        let timescale = mdhd.u32(if mdhd.bytes[0] == 0 { 12 } else { 20 });
        let is_read = |moof: &&Found| moof.kind == b"moof" && moof.at as u64 <= last;
        let moofs = top.iter().filter(is_read);
        let mdats = top.iter().filter(|found| found.kind == b"mdat");
        let chunks = moofs.zip(mdats).map(|(moof, mdat)| chunk(moof, mdat, defaults)).collect();
        Track { timescale, chunks }
    }
}

/// Duration, size and flags where a run has no own: `tfhd` has its own, or else those given.
fn chunk(moof: &Found, mdat: &Found, trex: [u32; 3]) -> Chunk {
    let traf = one(&moof.inside(), b"traf").inside();
    let (tfhd, tfdt) = (one(&traf, b"tfhd").body, one(&traf, b"tfdt").body);
    let mut at = 8;
    let mut field = |flag: u32, width: usize| {
        let has = tfhd.u32(0) & flag != 0;
        let here = at;
        at += if has { width } else { 0 };
        has.then_some(here)
    };
    field(0x1, 8);
    field(0x2, 4);
    let own = [field(0x8, 4), field(0x10, 4), field(0x20, 4)];
    let defaults = [0, 1, 2].map(|nth| own[nth].map_or(trex[nth], |at| tfhd.u32(at)));

    let mut samples = Vec::new();
    let mut next = moof.at as i64;
    for trun in traf.iter().filter(|found| found.kind == b"trun") {
        next = run(trun.body, moof.at as i64, next, defaults, &mut samples);
    }
    let start = match tfdt.bytes[0] {
        0 => u64::from(tfdt.u32(4)),
        _ => u64::from(tfdt.u32(4)) << 32 | u64::from(tfdt.u32(8)),
    };
    let from = mdat.body.at as i64;
    Chunk { start, samples, payload: from..from + mdat.body.bytes.len() as i64 }
}

/// Adds a run's samples, which begin at `next` if it carries no offset; gives where they end.
fn run(trun: Part, moof: i64, next: i64, defaults: [u32; 3], samples: &mut Vec<Sample>) -> i64 {
    let flags = trun.u32(0);
    let mut at = 8;
    let mut word = |flag: u32| {
        (flags & flag != 0).then(|| {
            at += 4;
            trun.u32(at - 4)
        })
    };
    let mut next = word(0x1).map_or(next, |offset| moof + i64::from(offset.cast_signed()));
    let mut first = word(0x4);
    for _ in 0..trun.u32(4) {
        let duration = word(0x100).unwrap_or(defaults[0]);
        let size = word(0x200).unwrap_or(defaults[1]);
        let own = word(0x400).unwrap_or(defaults[2]);
        word(0x800);
        samples.push(Sample { at: next, size, duration, flags: first.take().unwrap_or(own) });
        next += i64::from(size);
    }
    next
}

/// Bytes, and where they stand in the track.
#[derive(Clone, Copy)]
struct Part<'a> {
    bytes: &'a [u8],
    at: usize,
}

impl Part<'_> {
    fn u32(&self, at: usize) -> u32 {
        u32::from_be_bytes(self.bytes[at..at + 4].try_into().expect("four bytes"))
    }
}

struct Found<'a> {
    kind: &'a [u8],
    at: usize,
    body: Part<'a>,
}

impl<'a> Found<'a> {
    fn inside(&self) -> Vec<Found<'a>> {
        all(self.body)
    }
}

/// The boxes that stand there one behind the other.
fn all(part: Part) -> Vec<Found> {
    let mut found = Vec::new();
    let Part { mut bytes, mut at } = part;
    while !bytes.is_empty() {
        let here = Part { bytes, at };
        let (head, size) = match here.u32(0) {
            1 => (16, here.u32(12) as usize),
            size => (8, size as usize),
        };
        let body = Part { bytes: &bytes[head..size], at: at + head };
        found.push(Found { kind: &bytes[4..8], at, body });
        bytes = &bytes[size..];
        at += size;
    }
    found
}

/// The box of that kind, of which there is one.
fn one<'f, 'a>(found: &'f [Found<'a>], kind: &[u8; 4]) -> &'f Found<'a> {
    found.iter().find(|found| found.kind == kind).expect("a box that rules 7 and 14 ask for")
}
