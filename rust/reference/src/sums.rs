//! Sums over a table of big-endian words, column by column.

use crate::fields::words;

/// Fewer rows than this are added word by word.
const MANY: usize = 8;
/// So many bytes add up to what 16 bits hold.
const BLOCK: usize = 256;
/// Every other byte.
const BYTES: u64 = 0x00FF_00FF_00FF_00FF;

/// The sum of the column, of rows of one word.
pub fn of_words(table: &[u8]) -> u64 {
    let (pairs, last) = table.as_chunks::<8>();
    let [one, other] = of_pairs(pairs);
    one + other + words(last).map(u64::from).sum::<u64>()
}

/// The sums of the first two columns, of rows of `STEP` bytes.
pub fn of_pairs<const STEP: usize>(rows: &[[u8; STEP]]) -> [u64; 2] {
    if rows.len() < MANY {
        of_few_pairs(rows)
    } else {
        of_many_pairs(rows)
    }
}

/// Word by word.
fn of_few_pairs<const STEP: usize>(rows: &[[u8; STEP]]) -> [u64; 2] {
    let mut sums = [0; 2];
    for pair in pairs(rows) {
        let pair = u64::from_be_bytes(pair);
        sums[0] += pair >> 32;
        sums[1] += pair & 0xFFFF_FFFF;
    }
    sums
}

/// The bytes of one place in the row are added up, four places in each number, and only their
/// sums are put in order: no word is turned around, and a vector holds many.
fn of_many_pairs<const STEP: usize>(rows: &[[u8; STEP]]) -> [u64; 2] {
    let mut sums = [0; 2];
    for block in rows.chunks(BLOCK) {
        let [mut even, mut odd] = [0; 2];
        for pair in pairs(block) {
            let pair = u64::from_le_bytes(pair);
            even += pair & BYTES;
            odd += (pair >> 8) & BYTES;
        }
        sums[0] += in_order(even, odd);
        sums[1] += in_order(even >> 32, odd >> 32);
    }
    sums
}

/// The first two words of each row.
fn pairs<const STEP: usize>(rows: &[[u8; STEP]]) -> impl Iterator<Item = [u8; 8]> + '_ {
    rows.iter().filter_map(|row| row.first_chunk().copied())
}

/// The sum of words; `even` has the sums of their first and third bytes, `odd` of the others.
fn in_order(even: u64, odd: u64) -> u64 {
    let [first, third] = [even, even >> 16].map(|sum| sum & 0xFFFF);
    let [second, fourth] = [odd, odd >> 16].map(|sum| sum & 0xFFFF);
    (first << 24) + (second << 16) + (third << 8) + fourth
}

#[cfg(test)]
mod tests {
    use super::*;

    /// The sum of a column, row by row.
    fn plainly<const STEP: usize>(table: &[u8], column: usize) -> u64 {
        let word = |row: &[u8]| words(row).nth(column).map_or(0, u64::from);
        table.chunks_exact(STEP).map(word).sum()
    }

    /// The sums of both columns are right.
    fn check_pairs<const STEP: usize>(table: &[u8]) {
        let right = [plainly::<STEP>(table, 0), plainly::<STEP>(table, 1)];
        assert_eq!(of_pairs(table.as_chunks::<STEP>().0), right, "{} bytes", table.len());
    }

    /// Every length up to some blocks, of bytes that differ and of the greatest.
    #[test]
    fn sums_are_exact() {
        let differing: Vec<u8> = (0..12_000u32).map(|i| (i * 7 + i / 256 * 3) as u8).collect();
        for bytes in [differing, vec![0xFF; 12_000]] {
            for rows in 0..750 {
                assert_eq!(of_words(&bytes[..4 * rows]), plainly::<4>(&bytes[..4 * rows], 0));
                check_pairs::<8>(&bytes[..8 * rows]);
                check_pairs::<12>(&bytes[..12 * rows]);
                check_pairs::<16>(&bytes[..16 * rows]);
            }
        }
    }
}
