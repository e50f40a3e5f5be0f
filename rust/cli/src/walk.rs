//! Boxes read from the bytes by the command itself, for a track whose framing is refused: the
//! proved index lists nothing then. Explains a verdict and never changes it.

use crate::judge::{BoxAt, Kind};
use crate::layout;

/// The boxes up to the refused place, and the one that begins there if its header can be read.
/// A box's size is what its header says.
pub fn walk(bytes: &[u8], place: u64) -> Vec<BoxAt> {
    let mut boxes = Vec::new();
    // The containers around the present byte, outermost first, and where they end.
    let mut around: Vec<(Kind, usize)> = Vec::new();
    let mut at = 0;
    loop {
        while around.last().is_some_and(|(_, end)| at >= *end) {
            around.pop();
        }
        let end = around.last().map_or(bytes.len(), |(_, end)| *end);
        let Some(header) = bytes.get(at..end).and_then(header) else { return boxes };
        let Header { size, kind, length } = header;
        boxes.push(BoxAt { offset: at as u64, size, kind, depth: around.len() });
        // Each box before the place is well framed: the verdict says so.
        let next = (at as u64).checked_add(size).filter(|next| *next <= end as u64);
        let (true, Some(next)) = ((at as u64) < place && size >= length as u64, next) else {
            return boxes;
        };
        if layout::find(around.last().map(|(kind, _)| *kind), kind).is_some() {
            around.push((kind, next as usize));
            at += length;
        } else {
            at = next as usize;
        }
    }
}

struct Header {
    size: u64,
    kind: Kind,
    length: usize,
}

/// The header at the start of the bytes, if they hold all of it.
fn header(bytes: &[u8]) -> Option<Header> {
    let size = u32::from_be_bytes(*bytes.first_chunk()?);
    let kind = bytes.get(4..8)?.try_into().ok()?;
    if size != 1 {
        return Some(Header { size: u64::from(size), kind, length: 8 });
    }
    let size = u64::from_be_bytes(bytes.get(8..16)?.try_into().ok()?);
    Some(Header { size, kind, length: 16 })
}

#[cfg(test)]
mod tests {
    use super::*;
    use crate::judge;
    use maker::examples::examples;

    /// On good framing the walk to the end lists what the proved index lists.
    #[test]
    fn like_the_index() {
        let mut compared = 0;
        for example in examples() {
            let bytes = &example.case.bytes;
            if let Some(index) = judge::index(bytes) {
                assert_eq!(walk(bytes, bytes.len() as u64), index, "{}", example.name);
                compared += index.len();
            }
        }
        assert!(compared > 10_000, "{compared} boxes");
    }
}
