//! Damage that knows nothing of the rules.

use crate::decorate::KINDS;
use crate::rng::Rng;

/// Damages the bytes in one to three places.
pub fn damage(bytes: &mut Vec<u8>, rng: &mut Rng) {
    for _ in 0..rng.within(1..=3) {
        damage_once(bytes, rng);
    }
}

fn damage_once(bytes: &mut Vec<u8>, rng: &mut Rng) {
    let at = rng.index(bytes.len() + 1);
    let some = 1 + rng.index(20);
    match rng.below(10) {
        0 => bytes.truncate(at),
        1 => drop(bytes.splice(at..at, rng.bytes(some))),
        2 => drop(bytes.drain(at..(at + some).min(bytes.len()))),
        3 | 4 => put(bytes, at, &[rng.next() as u8]),
        5 => put(bytes, at, &rng.u32().to_be_bytes()),
        6 | 7 => poke_size(bytes, rng),
        _ => {
            if let Some(byte) = bytes.get_mut(at) {
                *byte ^= 1 << rng.below(8);
            }
        }
    }
}

/// Overwrites as much as there is.
fn put(bytes: &mut [u8], at: usize, new: &[u8]) {
    for (byte, new) in bytes.iter_mut().skip(at).zip(new) {
        *byte = *new;
    }
}

/// Writes a size before something that looks like a type.
fn poke_size(bytes: &mut [u8], rng: &mut Rng) {
    let is_kind = |word: &[u8]| KINDS.iter().any(|kind| word == *kind);
    let starts: Vec<usize> =
        (0..bytes.len().saturating_sub(8)).filter(|at| is_kind(&bytes[at + 4..at + 8])).collect();
    if starts.is_empty() {
        return;
    }
    let at = rng.pick(&starts);
    let old = u32::from_be_bytes(bytes[at..at + 4].try_into().expect("four bytes"));
    if rng.chance(20) {
        let any = rng.next();
        let long = rng.pick(&[0, 1, 15, 16, 17, u64::from(old), u64::MAX, 1 << 63, 1 << 32, any]);
        put(bytes, at, &1u32.to_be_bytes());
        put(bytes, at + 8, &long.to_be_bytes());
        return;
    }
    let small = rng.below(18) as u32;
    let size = rng.pick(&[small, small, old.wrapping_add(1), old.wrapping_sub(1), u32::MAX]);
    put(bytes, at, &size.to_be_bytes());
}
