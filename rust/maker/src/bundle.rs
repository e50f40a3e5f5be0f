//! Bundles: the records of a switching set.

pub const MARK: [u8; 2] = [0x53, 0x57];

/// A record: mark, length, track.
pub fn record(track: &[u8]) -> Vec<u8> {
    let length = u32::try_from(track.len()).expect("a track's length fits its record");
    [&MARK[..], &length.to_be_bytes(), track].concat()
}

pub fn bundle<T: AsRef<[u8]>>(tracks: &[T]) -> Vec<u8> {
    tracks.iter().flat_map(|track| record(track.as_ref())).collect()
}
