//! A set in memory as one bundle: each track behind the mark and its length.

use crate::failure::Failure;
use crate::input::Opened;
use crate::judge::MOST_BYTES;
use std::ops::Range;

/// What begins a record.
pub const MARK: [u8; 2] = *b"SW";

/// Mark and length.
pub const HEAD: usize = 6;

/// A set has no more tracks.
pub const MOST_TRACKS: usize = 16;

/// Called with a track's number and bytes.
pub type Each<'a> = &'a mut dyn FnMut(usize, &[u8]);

pub struct Bundle {
    bytes: Vec<u8>,
    tracks: Vec<Range<usize>>,
}

impl Bundle {
    /// Reads 1 to 16 files. `each` is shown every track's bytes once; without it, files behind the
    /// limit of a bundle are not read, as they can't change that it is too long.
    pub fn read(files: Vec<Opened>, mut each: Option<Each>) -> Result<Bundle, Failure> {
        // One file of the full length, and one byte to hear that it is too long.
        let kept = HEAD + MOST_BYTES + 1;
        let mut bundle = Bundle { bytes: Vec::new(), tracks: Vec::new() };
        // Room for all at once, where it can be had; each file asks for its own again.
        let sum: u64 =
            files.iter().map(|file| HEAD as u64 + file.expected()).fold(0, u64::saturating_add);
        let _ = bundle.bytes.try_reserve_exact(sum.min(kept as u64) as usize);
        for (nth, file) in files.into_iter().enumerate() {
            let bytes = &mut bundle.bytes;
            if bytes.len() >= kept && each.is_none() {
                bundle.tracks.push(kept..kept);
                continue;
            }
            let start = bytes.len() + HEAD;
            bytes.extend([MARK[0], MARK[1], 0, 0, 0, 0]);
            file.append_to(bytes, MOST_BYTES + 1)?;
            if let Some(each) = &mut each {
                each(nth, &bytes[start..]);
            }
            let length = (bytes.len() - start) as u32;
            bytes[start - 4..start].copy_from_slice(&length.to_be_bytes());
            bytes.truncate(kept);
            bundle.tracks.push(start.min(kept)..bytes.len());
        }
        Ok(bundle)
    }

    /// Reads a file that is a bundle already.
    pub fn read_packed(file: Opened) -> Result<Bundle, Failure> {
        let mut bytes = Vec::new();
        file.append_to(&mut bytes, MOST_BYTES + 1)?;
        Ok(Bundle::packed(bytes))
    }

    /// A bundle as it is. Its tracks are the records before the first bad one: they serve to explain
    /// a verdict, never to reach it.
    pub fn packed(bytes: Vec<u8>) -> Bundle {
        let tracks = records(&bytes);
        Bundle { bytes, tracks }
    }

    pub fn bytes(&self) -> &[u8] {
        &self.bytes
    }

    /// The tracks, cut off where the bundle is too long.
    pub fn tracks(&self) -> Vec<&[u8]> {
        self.tracks.iter().map(|track| &self.bytes[track.clone()]).collect()
    }
}

/// The well-framed records from the start, 16 at most.
fn records(bytes: &[u8]) -> Vec<Range<usize>> {
    let mut tracks = Vec::new();
    let mut at = 0;
    while tracks.len() < MOST_TRACKS {
        let Some(track) = record(bytes, at) else { break };
        at = track.end;
        tracks.push(track);
    }
    tracks
}

/// The track of the record at a place.
fn record(bytes: &[u8], at: usize) -> Option<Range<usize>> {
    let head = bytes.get(at..at + HEAD)?;
    let length = head.strip_prefix(&MARK)?.try_into().ok()?;
    let start = at + HEAD;
    let end = start + u32::from_be_bytes(length) as usize;
    (end <= bytes.len()).then_some(start..end)
}

#[cfg(test)]
mod tests {
    use super::*;

    #[test]
    fn good_records_before_the_first_bad_one() {
        assert_eq!(records(b""), []);
        assert_eq!(records(b"SW\0\0\0\x02abSW\0\0\0\0"), [6..8, 14..14]);
        assert_eq!(records(b"SW\0\0\0\x02abSW\0\0\0\0SW\0\0\0\x01"), [6..8, 14..14]);
        assert_eq!(records(b"WS\0\0\0\0"), []);
        assert_eq!(records(&b"SW\0\0\0\0".repeat(17)).len(), MOST_TRACKS);
    }
}
