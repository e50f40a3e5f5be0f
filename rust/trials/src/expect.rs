//! `trials expect`: what the program `intake` prints for a bundle, by the reference alone.

use crate::drawn::AMPLE;
use crate::wire::INPUT_LIMIT;
use reference::Verdict;
use std::io::{Read, Write};
use std::path::Path;

/// The lines of each file under a line `== FILE`; without files, those of standard input.
pub fn expect(files: &[String]) -> Result<(), String> {
    let text = if files.is_empty() { of_input()? } else { of_files(files)? };
    std::io::stdout().write_all(text.as_bytes()).map_err(|error| error.to_string())
}

fn of_input() -> Result<String, String> {
    let mut input = Vec::new();
    std::io::stdin().read_to_end(&mut input).map_err(|error| error.to_string())?;
    Ok(lines(&input))
}

fn of_files<P: AsRef<Path>>(files: &[P]) -> Result<String, String> {
    let mut text = String::new();
    for file in files.iter().map(P::as_ref) {
        let input = std::fs::read(file).map_err(|error| format!("{}: {error}", file.display()))?;
        let name = file.file_name().unwrap_or_default().to_string_lossy();
        text += &format!("== {name}\n{}", lines(&input));
    }
    Ok(text)
}

/// The lines for an input of the program.
fn lines(input: &[u8]) -> String {
    if input.len() > INPUT_LIMIT {
        return format!("input over {INPUT_LIMIT} bytes\n");
    }
    let mut table = vec![0; AMPLE];
    let Verdict { number, track, place, count, timescale } = reference::set(input, &mut table);
    if number != 0 {
        return format!("refused {number} track {track} at {place}\n");
    }
    let tracks = records(input);
    let mut text = format!("accepted tracks {tracks} fragments {count} timescale {timescale}\n");
    for boundary in &table[..=count as usize] {
        text += &format!("{boundary}\n");
    }
    text
}

/// How many records an accepted bundle has: each is a mark, a length and that many bytes.
fn records(bundle: &[u8]) -> usize {
    let mut records = 0;
    let mut rest = bundle;
    while let [_, _, a, b, c, d, behind @ ..] = rest {
        let length = u32::from_be_bytes([*a, *b, *c, *d]) as usize;
        rest = behind.get(length..).unwrap_or_default();
        records += 1;
    }
    records
}

#[cfg(test)]
mod tests {
    use super::*;
    use maker::bundle::bundle;
    use maker::examples::track_t;
    use maker::node;

    /// The two that document 01 shows, and both sides of the program's limit.
    #[test]
    fn lines_of_the_paper() {
        let t = node::bytes(&track_t());
        let accepted = "accepted tracks 2 fragments 2 timescale 90000\n0\n180000\n360000\n";
        assert_eq!(lines(&bundle(&[t.clone(), t])), accepted);
        assert_eq!(lines(&[]), "refused 24 track 0 at 0\n");
        assert_eq!(lines(&[0; 65_536]), "refused 24 track 0 at 0\n");
        assert_eq!(lines(&[0; 65_537]), "input over 65536 bytes\n");
    }

    /// The stored lines of the samples are the reference's, and no sample is without.
    #[test]
    fn lines_of_the_samples() {
        let samples = Path::new(env!("CARGO_MANIFEST_DIR")).join("../../samples");
        let stored = std::fs::read_to_string(samples.join("expected.txt")).unwrap();
        let names = stored.lines().filter_map(|line| line.strip_prefix("== "));
        let files: Vec<_> = names.map(|name| samples.join(name)).collect();
        assert_eq!(of_files(&files), Ok(stored));
        let entries = samples.read_dir().unwrap().map(|entry| entry.unwrap().path());
        let bundles = entries.filter(|path| path.extension().is_some_and(|end| end == "bundle"));
        assert_eq!(bundles.count(), files.len());
    }
}
