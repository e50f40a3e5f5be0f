//! Ticks as seconds.

/// Decimals that are shown.
const MICRO: u128 = 1_000_000;

/// Seconds, rounded to the nearest millionth; a timescale of 0 has none.
pub fn seconds(ticks: u64, timescale: u64) -> String {
    if timescale == 0 {
        return "no time".to_owned();
    }
    let (ticks, timescale) = (u128::from(ticks), u128::from(timescale));
    let millionths = (2 * ticks * MICRO + timescale) / (2 * timescale);
    format!("{}.{:06} s", millionths / MICRO, millionths % MICRO)
}

#[cfg(test)]
mod tests {
    use super::seconds;

    #[test]
    fn rounded() {
        assert_eq!(seconds(0, 90_000), "0.000000 s");
        assert_eq!(seconds(90_001, 90_000), "1.000011 s");
        assert_eq!(seconds(2, 3), "0.666667 s");
        assert_eq!(seconds(1, 2_000_000), "0.000001 s", "a half is rounded up");
        assert_eq!(seconds(999_999_999, 1_000_000_000), "1.000000 s", "the carry");
        assert_eq!(seconds(u64::MAX, 1), "18446744073709551615.000000 s");
        assert_eq!(seconds(u64::MAX, u64::MAX), "1.000000 s");
        assert_eq!(seconds(1, 0), "no time");
    }
}
