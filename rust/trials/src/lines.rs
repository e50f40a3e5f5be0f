//! `trials lines`: the reference's lines for stored cases, from standard input to standard output.

use crate::wire;
use std::io::{Read, Write};

/// The lines of all cases, which are of the jobs that have a table.
pub fn lines() -> Result<(), String> {
    let mut cases = Vec::new();
    std::io::stdin().read_to_end(&mut cases).map_err(|error| error.to_string())?;
    std::io::stdout().write_all(of_cases(&cases)?.as_bytes()).map_err(|error| error.to_string())
}

fn of_cases(cases: &[u8]) -> Result<String, String> {
    let mut lines = String::new();
    let mut rest = cases;
    while !rest.is_empty() {
        let (case, room) = wire::take(&mut rest).ok_or("these are no cases with a table")?;
        lines += &(wire::answer(&case, room).1 + "\n");
    }
    Ok(lines)
}

#[cfg(test)]
mod tests {
    use super::*;
    use std::path::Path;

    /// The stored lines are the reference's.
    #[test]
    fn stored_lines() {
        let vectors = Path::new(env!("CARGO_MANIFEST_DIR")).join("../vectors");
        for (cases, expected) in
            [("cases.bin", "expected.txt"), ("fuzz-cases.bin", "fuzz-expected.txt")]
        {
            let cases = std::fs::read(vectors.join(cases)).unwrap();
            let expected = std::fs::read_to_string(vectors.join(expected)).unwrap();
            let lines = of_cases(&cases).unwrap();
            let stale: Vec<_> =
                lines.lines().zip(expected.lines()).filter(|(a, b)| a != b).collect();
            assert_eq!(stale, []);
            assert_eq!(lines.len(), expected.len());
        }
    }

    #[test]
    fn no_cases() {
        assert_eq!(of_cases(&[]), Ok(String::new()));
        for bytes in [&[1][..], &[3, 0, 0, 0, 0, 0, 0, 0, 0], &[1, 0, 0, 0, 0, 0, 0, 0, 1]] {
            assert!(of_cases(bytes).is_err());
        }
    }
}
