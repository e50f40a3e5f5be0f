//! A track in the words of the paper, and the boxes that say it.

use crate::node::{self, Kind, Node};
use crate::rng::Rng;

pub const NON_SYNC: u32 = 0x0001_0000;

#[derive(Clone, Copy, Debug, Default)]
pub struct Defaults {
    pub duration: u32,
    pub size: u32,
    pub flags: u32,
}

#[derive(Clone, Debug)]
pub struct Track {
    pub track_id: u32,
    pub timescale: u32,
    pub handler: Kind,
    pub media_header: Kind,
    pub brands: Vec<Kind>,
    pub mvhd_version: u8,
    pub tkhd_version: u8,
    pub mdhd_version: u8,
    pub edts: bool,
    pub elng: bool,
    pub trex: Defaults,
    pub chunks: Vec<Chunk>,
}

/// A `moof` and its `mdat`.
#[derive(Clone, Debug)]
pub struct Chunk {
    pub start: u64,
    /// Version 1, with 64 bits.
    pub wide_tfdt: bool,
    pub tfhd_flags: u32,
    pub tfhd: Defaults,
    pub runs: Vec<Run>,
}

#[derive(Clone, Debug)]
pub struct Run {
    pub version: u8,
    pub flags: u32,
    pub count: u32,
    pub first_sample_flags: u32,
    /// One a sample, if the run carries any field of its own.
    pub samples: Vec<Sample>,
    /// What is added to the right offset.
    pub offset_error: i32,
}

#[derive(Clone, Copy, Debug, Default)]
pub struct Sample {
    pub duration: u32,
    pub size: u32,
    pub flags: u32,
    pub composition: u32,
}

/// The fields that a run's samples may carry, in the order of the box.
pub const SAMPLE_FIELDS: u32 = 0xF00;

/// Samples of more bytes than this fit into no track, and are given any payload.
const MAX_PAYLOAD: u64 = 1 << 30;

/// What stands in the fields that no rule looks at, and how long the parts are that no rule bounds.
pub enum Fill<'a> {
    Zeros,
    Drawn(&'a mut Rng),
}

impl Fill<'_> {
    fn bytes(&mut self, len: usize) -> Vec<u8> {
        match self {
            Fill::Zeros => vec![0; len],
            Fill::Drawn(rng) => rng.bytes(len),
        }
    }

    fn up_to(&mut self, most: u64) -> Vec<u8> {
        match self {
            Fill::Zeros => Vec::new(),
            Fill::Drawn(rng) => {
                let len = rng.within(0..=most) as usize;
                rng.bytes(len)
            }
        }
    }
}

/// Parts of a body, one after the other.
fn body(parts: &[&[u8]]) -> Vec<u8> {
    parts.concat()
}

impl Track {
    /// Track T of document 01 with as many chunks as asked, each a fragment; it has two.
    pub fn example(chunks: u64) -> Track {
        let chunk = |k: u64| Chunk {
            start: k * 180_000,
            wide_tfdt: false,
            tfhd_flags: 0x02_0000,
            tfhd: Defaults::default(),
            runs: vec![Run {
                version: 0,
                flags: 0x301,
                count: 2,
                first_sample_flags: 0,
                samples: [10, 20]
                    .map(|size| Sample { duration: 90_000, size, ..Sample::default() })
                    .to_vec(),
                offset_error: 0,
            }],
        };
        Track {
            track_id: 1,
            timescale: 90_000,
            handler: *b"vide",
            media_header: *b"vmhd",
            brands: vec![*b"cmfc"],
            mvhd_version: 0,
            tkhd_version: 0,
            mdhd_version: 0,
            edts: false,
            elng: false,
            trex: Defaults::default(),
            chunks: (0..chunks).map(chunk).collect(),
        }
    }

    /// Track U: T's header, and three chunks like T's in two fragments, each with first-sample
    /// flags. The second is non-sync by them and belongs to the first fragment.
    pub fn example_u() -> Track {
        let mut track = Track::example(3);
        for (nth, chunk) in track.chunks.iter_mut().enumerate() {
            let run = &mut chunk.runs[0];
            run.flags = 0x305;
            run.first_sample_flags = if nth == 1 { 0x0101_0000 } else { 0x0200_0000 };
        }
        track
    }

    /// The first chunk of each fragment: that of the track, and each later one that is sync.
    pub fn fragments(&self) -> Vec<usize> {
        let begins = |nth: &usize| *nth == 0 || self.chunks[*nth].is_sync(&self.trex);
        (0..self.chunks.len()).filter(begins).collect()
    }

    /// The boundaries, as many as fragments and one more.
    pub fn boundaries(&self) -> Vec<u64> {
        let starts = self.fragments().into_iter().map(|first| self.chunks[first].start);
        starts.chain([self.end_before(self.chunks.len())]).collect()
    }

    /// Where the n-th chunk must start, n being at least 1.
    pub fn end_before(&self, nth: usize) -> u64 {
        let before = &self.chunks[nth - 1];
        before.start.wrapping_add(before.duration(&self.trex))
    }

    /// The boxes of the track, in the order of the paper.
    pub fn boxes(&self, fill: &mut Fill) -> Vec<Node> {
        let brands = self.brands.concat();
        let ftyp = Node::leaf(b"ftyp", body(&[&fill.bytes(8), &brands]));
        let mut boxes = vec![ftyp, self.moov(fill)];
        for chunk in &self.chunks {
            boxes.push(chunk.moof(self.track_id, fill));
            let size = chunk.size(&self.trex);
            let payload = if size > MAX_PAYLOAD { 64 } else { size as usize };
            boxes.push(Node::zeros(b"mdat", payload));
        }
        self.settle(&mut boxes);
        boxes
    }

    /// Writes the offsets of all runs, which depend on the sizes of all boxes before the samples.
    pub fn settle(&self, boxes: &mut [Node]) {
        let is_mdat = |node: &Node| node.kind == *b"mdat";
        let mdat_headers: Vec<usize> =
            boxes.iter().filter(|node| is_mdat(node)).map(Node::header_len).collect();
        let moofs = boxes.iter_mut().filter(|node| node.kind == *b"moof");
        for ((moof, chunk), mdat_header) in moofs.zip(&self.chunks).zip(mdat_headers) {
            let mut next = (moof.size() + mdat_header) as i64;
            for (nth, run) in chunk.runs.iter().enumerate() {
                if run.flags & 0x1 != 0 {
                    let trun = node::at(moof.boxes(), &[(*b"traf", 0), (*b"trun", nth)]);
                    let offset = next as i32;
                    trun.put_u32(8, offset.wrapping_add(run.offset_error).cast_unsigned());
                }
                next += run.size(&chunk.defaults(&self.trex)) as i64;
            }
        }
    }

    fn moov(&self, fill: &mut Fill) -> Node {
        let mvhd = timed(b"mvhd", self.mvhd_version, 0, [100, 112], fill);
        let tkhd = timed(b"tkhd", self.tkhd_version, self.track_id, [84, 96], fill);
        let mdhd = timed(b"mdhd", self.mdhd_version, self.timescale, [24, 36], fill);
        let handler = body(&[&fill.bytes(8), &self.handler, &fill.bytes(12), &fill.up_to(20)]);
        let media_header = Node::leaf(&self.media_header, fill.up_to(16));
        let dinf = Node::container(b"dinf", vec![Node::leaf(b"dref", fill.up_to(30))]);
        let entries = |kind: &Kind, before: usize, count: u32, fill: &mut Fill| {
            let count = count.to_be_bytes();
            Node::leaf(kind, body(&[&fill.bytes(before), &count, &fill.up_to(24)]))
        };
        let stbl = vec![
            entries(b"stsd", 4, 1, fill),
            entries(b"stts", 4, 0, fill),
            entries(b"stsc", 4, 0, fill),
            entries(b"stsz", 8, 0, fill),
            entries(b"stco", 4, 0, fill),
        ];
        let minf = vec![media_header, dinf, Node::container(b"stbl", stbl)];

        let mut mdia = vec![mdhd, Node::leaf(b"hdlr", handler)];
        if self.elng {
            mdia.push(Node::leaf(b"elng", fill.up_to(12)));
        }
        mdia.push(Node::container(b"minf", minf));

        let mut trak = vec![tkhd];
        if self.edts {
            let elst = Node::leaf(b"elst", fill.up_to(40));
            trak.push(Node::container(b"edts", vec![elst]));
        }
        trak.push(Node::container(b"mdia", mdia));

        let trex = body(&[
            &[0],
            &fill.bytes(3),
            &self.track_id.to_be_bytes(),
            &fill.bytes(4),
            &self.trex.duration.to_be_bytes(),
            &self.trex.size.to_be_bytes(),
            &self.trex.flags.to_be_bytes(),
        ]);
        let mvex = Node::container(b"mvex", vec![Node::leaf(b"trex", trex)]);
        Node::container(b"moov", vec![mvhd, Node::container(b"trak", trak), mvex])
    }
}

/// A box that begins with version and times; `word` follows the times.
fn timed(kind: &Kind, version: u8, word: u32, lengths: [usize; 2], fill: &mut Fill) -> Node {
    let (len, times) = if version == 0 { (lengths[0], 8) } else { (lengths[1], 16) };
    let before = fill.bytes(3 + times);
    let after = fill.bytes(len - 1 - before.len() - 4);
    Node::leaf(kind, body(&[&[version], &before, &word.to_be_bytes(), &after]))
}

/// Version in the top byte, flags below.
fn version_and_flags(version: u8, flags: u32) -> [u8; 4] {
    (u32::from(version) << 24 | flags).to_be_bytes()
}

impl Chunk {
    /// The values of a sample whose run carries none.
    pub fn defaults(&self, trex: &Defaults) -> Defaults {
        let choose = |flag: u32, own: u32, other: u32| match self.tfhd_flags & flag {
            0 => other,
            _ => own,
        };
        Defaults {
            duration: choose(0x8, self.tfhd.duration, trex.duration),
            size: choose(0x10, self.tfhd.size, trex.size),
            flags: choose(0x20, self.tfhd.flags, trex.flags),
        }
    }

    pub fn duration(&self, trex: &Defaults) -> u64 {
        let defaults = self.defaults(trex);
        self.runs.iter().map(|run| run.duration(&defaults)).sum()
    }

    pub fn size(&self, trex: &Defaults) -> u64 {
        let defaults = self.defaults(trex);
        self.runs.iter().map(|run| run.size(&defaults)).sum()
    }

    /// Whether the first sample is sync: that of the first run that has one. A chunk without
    /// samples is taken for sync.
    pub fn is_sync(&self, trex: &Defaults) -> bool {
        let defaults = self.defaults(trex);
        let first = self.runs.iter().find(|run| run.count > 0);
        first.is_none_or(|run| run.first_flags(&defaults) & NON_SYNC == 0)
    }

    /// Whether the offsets keep rule 22.
    pub fn has_good_offsets(&self) -> bool {
        self.runs[0].flags & 0x1 != 0 && self.runs.iter().all(|run| run.offset_error == 0)
    }

    fn moof(&self, track_id: u32, fill: &mut Fill) -> Node {
        let mfhd = Node::leaf(b"mfhd", body(&[&[0], &fill.bytes(7)]));
        let mut boxes = vec![self.tfhd(track_id, fill), self.tfdt(fill)];
        boxes.extend(self.runs.iter().map(Run::trun));
        Node::container(b"moof", vec![mfhd, Node::container(b"traf", boxes)])
    }

    fn tfhd(&self, track_id: u32, fill: &mut Fill) -> Node {
        let mut tfhd = body(&[&version_and_flags(0, self.tfhd_flags), &track_id.to_be_bytes()]);
        let optional: [(u32, Vec<u8>); 5] = [
            (0x1, fill.bytes(8)),
            (0x2, fill.bytes(4)),
            (0x8, self.tfhd.duration.to_be_bytes().to_vec()),
            (0x10, self.tfhd.size.to_be_bytes().to_vec()),
            (0x20, self.tfhd.flags.to_be_bytes().to_vec()),
        ];
        for (flag, field) in optional {
            if self.tfhd_flags & flag != 0 {
                tfhd.extend(field);
            }
        }
        Node::leaf(b"tfhd", tfhd)
    }

    fn tfdt(&self, fill: &mut Fill) -> Node {
        let start = self.start.to_be_bytes();
        let start = if self.wide_tfdt { &start[..] } else { &start[4..] };
        Node::leaf(b"tfdt", body(&[&[u8::from(self.wide_tfdt)], &fill.bytes(3), start]))
    }
}

impl Run {
    pub fn duration(&self, defaults: &Defaults) -> u64 {
        self.total(0x100, defaults.duration, |sample| sample.duration)
    }

    pub fn size(&self, defaults: &Defaults) -> u64 {
        self.total(0x200, defaults.size, |sample| sample.size)
    }

    /// The flags of the first sample, which is there.
    fn first_flags(&self, defaults: &Defaults) -> u32 {
        match (self.flags & 0x4, self.flags & 0x400) {
            (0, 0) => defaults.flags,
            (0, _) => self.samples[0].flags,
            _ => self.first_sample_flags,
        }
    }

    fn total(&self, flag: u32, default: u32, field: impl Fn(&Sample) -> u32) -> u64 {
        match self.flags & flag {
            0 => u64::from(self.count) * u64::from(default),
            _ => self.samples.iter().map(|sample| u64::from(field(sample))).sum(),
        }
    }

    fn trun(&self) -> Node {
        let mut trun =
            body(&[&version_and_flags(self.version, self.flags), &self.count.to_be_bytes()]);
        let mut put_if = |flag: u32, value: u32| {
            if self.flags & flag != 0 {
                trun.extend(value.to_be_bytes());
            }
        };
        put_if(0x1, 0); // settled later
        put_if(0x4, self.first_sample_flags);
        for sample in &self.samples {
            put_if(0x100, sample.duration);
            put_if(0x200, sample.size);
            put_if(0x400, sample.flags);
            put_if(0x800, sample.composition);
        }
        Node::leaf(b"trun", trun)
    }
}
