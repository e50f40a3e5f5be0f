//! Large and crowded tracks, for the bench, the slowest and the stack.

use maker::bundle::MARK;
use maker::node::{self, Content, Header, Node, Step};
use maker::track::{Chunk, Defaults, Fill, Run, Sample, Track, NON_SYNC};
use reference::MAX_BOXES;

/// How many chunks of one run fit into so many boxes, beside the 20 of `ftyp` and `moov`.
pub const fn chunks_in(boxes: usize) -> usize {
    (boxes - 20) / 7
}

/// No track has more chunks.
pub const MAX_CHUNKS: usize = chunks_in(MAX_BOXES);
const MAX_SAMPLES: usize = 65_536;

/// How a track fills its bytes.
#[derive(Clone, Copy)]
pub enum Shape {
    /// Some 48 samples a chunk, as large as it takes.
    FewLarge,
    /// As many samples as fit, each with a duration and a size of its own.
    ManySmall,
    /// As many chunks as fit into so many boxes, a sample each.
    ManyChunks(usize),
}

impl Shape {
    /// Chunks, and samples in each, for about this many bytes.
    fn plan(self, bytes: usize) -> (usize, usize) {
        match self {
            Shape::FewLarge => ((bytes >> 18).clamp(2, 500), 48),
            Shape::ManySmall => {
                // 8 bytes in the run and about 6 of payload.
                let samples = bytes / 14;
                let chunks = samples.div_ceil(MAX_SAMPLES).clamp(2, MAX_CHUNKS);
                (chunks, (samples / chunks).clamp(1, MAX_SAMPLES))
            }
            Shape::ManyChunks(boxes) => (chunks_in(boxes), 1),
        }
    }
}

/// So many chunks a fragment, one and more. The tracks differ in first-sample flags alone.
#[derive(Clone, Copy)]
pub struct Together(pub usize);

/// Each chunk is a fragment.
pub const APART: Together = Together(1);

/// A good track of about this many bytes.
pub fn large(bytes: usize, shape: Shape, together: Together) -> Vec<Node> {
    planned(bytes, shape.plan(bytes), together).boxes(&mut Fill::Zeros)
}

/// A good track of about this many bytes in so many boxes, as many chunks as fit.
pub fn full(total: usize, bytes: usize, together: Together) -> Vec<Node> {
    let mut boxes = planned(bytes, (chunks_in(total), 48), together).boxes(&mut Fill::Zeros);
    node::fill_up(&mut boxes, total);
    boxes
}

/// A good track of about a mebibyte whose samples carry so many fields each, one to four: the size,
/// then the duration too, the composition offset too, the flags too.
pub fn tables(fields: usize) -> Vec<Node> {
    const CHUNKS: usize = 8;
    const FLAGS: [u32; 4] = [0x201, 0x301, 0xB01, 0xF01];
    // 4 bytes a field in the run and about 6 of payload.
    let samples = (1 << 20) / (4 * fields + 6) / CHUNKS;
    let mut track = planned(0, (CHUNKS, samples), APART);
    track.trex = Defaults { duration: 3000, ..Defaults::default() };
    let mut start = 0;
    for chunk in &mut track.chunks {
        let run = &mut chunk.runs[0];
        run.flags = FLAGS[fields - 1];
        for (i, sample) in run.samples.iter_mut().enumerate() {
            sample.size = 4 + (i % 5) as u32;
            sample.composition = 1500 * (i % 3) as u32;
        }
        chunk.start = start;
        start += run.duration(&track.trex);
    }
    track.boxes(&mut Fill::Zeros)
}

/// A good track with one data box of this many bytes.
pub fn one_data_box(bytes: usize) -> Vec<Node> {
    planned(bytes, (1, 48), APART).boxes(&mut Fill::Zeros)
}

/// As many chunks of a sample each as fit into so many boxes, with what few encoders write.
pub fn unusual(total: usize, dress: Dress, together: Together) -> Vec<Node> {
    let chunks = match dress {
        Dress::BoxBehind | Dress::TwoRuns | Dress::EmptyRun => (total - 20) / 8,
        Dress::LongHeaders | Dress::Backwards => chunks_in(total),
    };
    let mut track = planned(0, (chunks, 1), together);
    for chunk in &mut track.chunks {
        match dress {
            Dress::TwoRuns => {
                chunk.runs.push(chunk.runs[0].clone());
                chunk.start *= 2;
            }
            Dress::EmptyRun => {
                let empty = Run { count: 0, samples: vec![], ..chunk.runs[0].clone() };
                chunk.runs.insert(0, empty);
            }
            _ => (),
        }
    }
    let mut boxes = track.boxes(&mut Fill::Zeros);
    for moof in boxes.iter_mut().filter(|node| node.kind == *b"moof") {
        dress.put_on(moof);
    }
    track.settle(&mut boxes);
    boxes
}

/// What stands in a `moof` beside, or instead of, what most encoders write.
#[derive(Clone, Copy)]
pub enum Dress {
    /// A box that no rule names, behind the run.
    BoxBehind,
    /// A second run.
    TwoRuns,
    /// A run without samples, before the run.
    EmptyRun,
    /// The long header, in every box.
    LongHeaders,
    /// The boxes of `moof` and of `traf`, last to first.
    Backwards,
}

impl Dress {
    fn put_on(self, moof: &mut Node) {
        match self {
            Dress::BoxBehind => {
                let is_traf = |node: &&mut Node| node.kind == *b"traf";
                let traf = moof.boxes().iter_mut().find(is_traf).expect("a traf");
                traf.boxes().push(Node::leaf(b"saiz", vec![0; 9]));
            }
            Dress::TwoRuns | Dress::EmptyRun => (),
            Dress::LongHeaders => {
                moof.header = Header::Long;
                if let Content::Boxes(inside) = &mut moof.content {
                    inside.iter_mut().for_each(|node| self.put_on(node));
                }
            }
            Dress::Backwards => {
                if let Content::Boxes(inside) = &mut moof.content {
                    inside.reverse();
                    inside.iter_mut().for_each(|node| self.put_on(node));
                }
            }
        }
    }
}

/// A good track of so many chunks, of so many samples each, in about this many bytes.
fn planned(bytes: usize, (chunks, samples): (usize, usize), Together(together): Together) -> Track {
    let entries = chunks * samples * 8;
    let size = (bytes.saturating_sub(entries) / chunks / samples) as u32;
    let chunk = |nth: usize| {
        // Neighbours differ, so that no sum is a product in disguise.
        let sample = |i: usize| Sample {
            duration: 3000 + (i % 2) as u32,
            size: size - (i % 4).min(size as usize) as u32,
            ..Sample::default()
        };
        let run = Run {
            version: 1,
            flags: 0x305,
            count: samples as u32,
            first_sample_flags: if nth.is_multiple_of(together) { 0 } else { NON_SYNC },
            samples: (0..samples).map(sample).collect(),
            offset_error: 0,
        };
        let ticks = run.duration(&Defaults::default());
        let start = nth as u64 * ticks;
        Chunk {
            start,
            wide_tfdt: true,
            tfhd_flags: 0x02_0000,
            tfhd: Defaults::default(),
            runs: vec![run],
        }
    };
    let mut track = Track::example(0);
    track.trex.flags = NON_SYNC;
    track.chunks = (0..chunks).map(chunk).collect();
    track
}

/// A good track of so many boxes, all but those of T being empty.
pub fn crowded(total: usize) -> Vec<Node> {
    let mut boxes = maker::examples::track_t();
    node::fill_up(&mut boxes, total);
    boxes
}

/// A good track of so many boxes, the empty ones in one container of T, before or behind its own.
pub fn crowded_in(total: usize, path: &[Step], front: bool) -> Vec<Node> {
    let track = Track::example(2);
    let mut boxes = track.boxes(&mut Fill::Zeros);
    let missing = total - node::count(&boxes);
    let crowd = (0..missing).map(|_| Node::leaf(b"free", vec![]));
    let inside = node::inside(&mut boxes, path);
    let place = if front { 0 } else { inside.len() };
    inside.splice(place..place, crowd);
    track.settle(&mut boxes);
    boxes
}

/// One chunk of 65,536 samples in as many runs as so many boxes allow.
pub fn many_runs(total: usize) -> Vec<Node> {
    in_runs(total, MAX_SAMPLES)
}

/// One chunk of as many runs as so many boxes allow, a sample each.
pub fn runs_of_one(total: usize) -> Vec<Node> {
    in_runs(total, runs_in(total))
}

/// How many runs fit into so many boxes, beside the 20 of `ftyp` and `moov` and the 6 of a chunk.
pub const fn runs_in(boxes: usize) -> usize {
    boxes - 26
}

/// One chunk of so many samples in as many runs as so many boxes allow.
fn in_runs(total: usize, samples: usize) -> Vec<Node> {
    let run = |count: usize| Run {
        version: 0,
        flags: 0x301,
        count: count as u32,
        first_sample_flags: 0,
        samples: vec![Sample { duration: 1, size: 1, ..Sample::default() }; count],
        offset_error: 0,
    };
    let runs = runs_in(total);
    let mut track = Track::example(1);
    let mut counts = vec![samples / runs; runs];
    counts[0] += samples % runs;
    track.chunks[0].runs = counts.into_iter().map(run).collect();
    track.boxes(&mut Fill::Zeros)
}

/// The bundle of these tracks. Payloads stay zeros that nobody writes.
pub fn bundle(tracks: &[&[Node]]) -> Vec<Node> {
    let mut records = Vec::new();
    for track in tracks {
        let length = u32::try_from(node::total_size(track)).expect("a track's length");
        records.push(Node::bare([&MARK[..], &length.to_be_bytes()].concat()));
        records.extend(track.iter().cloned());
    }
    records
}
