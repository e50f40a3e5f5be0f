//! Ways to cut bytes into pieces, empty ones among them.

use crate::rng::Rng;

/// More pieces than this take too long.
const MOST_PIECES: usize = 6000;
/// Steps around the lengths of headers, of files and of what is kept.
const STEPS: [usize; 14] = [1, 2, 3, 7, 8, 9, 15, 16, 17, 188, 1500, 4096, 32_768, 65_536];
/// How far from the start of a box a cut may matter.
const NEAR: [usize; 12] = [0, 1, 4, 7, 8, 9, 15, 16, 17, 32_767, 32_768, 32_769];

/// The bytes in one of several ways.
pub fn cut<'a>(bytes: &'a [u8], rng: &mut Rng) -> Vec<&'a [u8]> {
    let mut places = match rng.below(6) {
        0 => Vec::new(),
        1 => every(1, bytes.len()),
        2 => every(rng.pick(&STEPS), bytes.len()),
        3 => at_random(bytes.len(), rng),
        4 => vec![rng.index(bytes.len() + 1)],
        _ => near_boxes(bytes, rng),
    };
    if rng.chance(30) {
        places.push(0);
        places.push(bytes.len());
        let twice: Vec<usize> = places.iter().copied().filter(|_| rng.chance(40)).collect();
        places.extend(twice);
        places.sort_unstable();
    }
    pieces(bytes, &places)
}

/// Pieces of so many bytes, the last one of what is left.
pub fn steps(bytes: &[u8], step: usize) -> Vec<&[u8]> {
    bytes.chunks(step).collect()
}

/// The pieces between places in rising order.
fn pieces<'a>(bytes: &'a [u8], places: &[usize]) -> Vec<&'a [u8]> {
    let mut from = 0;
    let mut pieces = Vec::new();
    for place in places {
        pieces.push(&bytes[from..*place]);
        from = *place;
    }
    pieces.push(&bytes[from..]);
    pieces
}

/// A cut every so many bytes, or at greater steps where that would be too often.
fn every(step: usize, len: usize) -> Vec<usize> {
    (0..len).step_by(step.max(len.div_ceil(MOST_PIECES))).skip(1).collect()
}

/// Pieces of any length up to a drawn one.
fn at_random(len: usize, rng: &mut Rng) -> Vec<usize> {
    let longest = rng.pick(&[2, 20, 300, 5000, 70_000]).max(len.div_ceil(MOST_PIECES / 2));
    let mut places = Vec::new();
    let mut at = rng.index(longest + 1);
    while at < len {
        places.push(at);
        at += rng.index(longest + 1);
    }
    places
}

/// Cuts in and behind the headers of the top level, and where a box is as long as may be kept.
fn near_boxes(bytes: &[u8], rng: &mut Rng) -> Vec<usize> {
    let mut places = Vec::new();
    for start in starts(bytes) {
        for _ in 0..rng.below(4) {
            places.push(start + rng.pick(&NEAR));
        }
    }
    places.retain(|place| *place <= bytes.len());
    places.sort_unstable();
    places
}

/// Where the boxes of the top level start, as far as their sizes lead.
fn starts(bytes: &[u8]) -> Vec<usize> {
    let mut starts = Vec::new();
    let mut at = 0;
    while let Some([a, b, c, d]) = bytes.get(at..).and_then(|rest| rest.first_chunk()) {
        starts.push(at);
        let long = bytes.get(at + 8..).and_then(|rest| rest.first_chunk());
        let size = match (u32::from_be_bytes([*a, *b, *c, *d]), long) {
            (1, Some(long)) => u64::from_be_bytes(*long),
            (size, _) => u64::from(size),
        };
        if !(8..=bytes.len() as u64).contains(&size) {
            break;
        }
        at += size as usize;
    }
    starts
}

#[cfg(test)]
mod tests {
    use super::*;

    #[test]
    fn nothing_is_lost() {
        let mut rng = Rng::new(4);
        for len in [0, 1, 2, 9, 100, 40_000] {
            let bytes = rng.bytes(len);
            for _ in 0..200 {
                assert_eq!(cut(&bytes, &mut rng).concat(), bytes);
            }
            assert_eq!(steps(&bytes, 7).concat(), bytes);
        }
    }

    #[test]
    fn starts_of_boxes() {
        let boxes = b"\0\0\0\x09free-\0\0\0\x01free\0\0\0\0\0\0\0\x10\0\0\0\x08free\0\0";
        assert_eq!(starts(boxes), [0, 9, 25]);
        assert_eq!(starts(&boxes[..30]), [0, 9, 25]);
    }
}
