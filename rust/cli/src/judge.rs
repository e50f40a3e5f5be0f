//! The verdict path: bytes go in, the proved archive's verdict and table come out. Nothing else in
//! this command decides anything.

use flangemint::{check_index, check_set, check_track, index_room, track_room, Verdict};

/// A track in pieces: fed while it arrives, answered at its end.
pub use flangemint::{Answer, Pieces};

/// The longest input that a job looks at. One byte more is enough to hear that it is too long.
pub const MOST_BYTES: usize = 1_073_741_824;

/// Numbers a box in the index: offset, whole size, type, depth.
const ROW: usize = 4;

/// The four letters of a box type.
pub type Kind = [u8; 4];

/// A verdict; with it, on acceptance, the boundaries in ticks, one more than there are fragments.
#[derive(Clone, Debug)]
pub struct Judged {
    pub verdict: Verdict,
    pub boundaries: Vec<u64>,
}

/// A box, as the index lists it.
#[derive(Clone, Copy, Debug, PartialEq, Eq)]
pub struct BoxAt {
    pub offset: u64,
    pub size: u64,
    pub kind: Kind,
    pub depth: usize,
}

/// The track job.
pub fn track(bytes: &[u8]) -> Judged {
    with_boundaries(check_track, bytes)
}

/// The set job.
pub fn set(bundle: &[u8]) -> Judged {
    with_boundaries(check_set, bundle)
}

fn with_boundaries(check: fn(&[u8], &mut [u64]) -> Verdict, bytes: &[u8]) -> Judged {
    let mut boundaries = vec![0; track_room(bytes.len())];
    let verdict = check(bytes, &mut boundaries);
    boundaries.truncate(if verdict.is_accepted() { verdict.count as usize + 1 } else { 0 });
    Judged { verdict, boundaries }
}

/// The index job: the boxes, parents before children, in byte order; `None` where it refuses.
pub fn index(bytes: &[u8]) -> Option<Vec<BoxAt>> {
    let mut table = vec![0; index_room(bytes.len())];
    let verdict = check_index(bytes, &mut table);
    if !verdict.is_accepted() {
        return None;
    }
    let rows = table.chunks_exact(ROW).take(verdict.count as usize);
    Some(
        rows.map(|row| BoxAt {
            offset: row[0],
            size: row[1],
            kind: kind(row[2]),
            depth: row[3] as usize,
        })
        .collect(),
    )
}

/// The letters of a type that is given as a number.
fn kind(number: u64) -> Kind {
    (number as u32).to_be_bytes()
}
