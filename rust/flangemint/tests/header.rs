//! The crate's constants are those of the C header.

use flangemint::{INDEX_ROOM, MAX_BOXES, MAX_BYTES, MAX_GATHERED, MAX_TRACKS, TRACK_ROOM, VERSION};

/// What the header defines under a name, without a comment behind it.
fn defined(name: &str) -> String {
    let header = include_str!("../../../include/flangemint.h");
    let start = format!("#define FLANGEMINT_{name} ");
    let line = header.lines().find_map(|line| line.strip_prefix(start.as_str())).expect(name);
    line.split("/*").next().unwrap().trim().to_string()
}

#[test]
fn limits() {
    assert_eq!(defined("MAX_BYTES"), MAX_BYTES.to_string());
    assert_eq!(defined("MAX_BOXES"), MAX_BOXES.to_string());
    assert_eq!(defined("MAX_TRACKS"), MAX_TRACKS.to_string());
    assert_eq!(defined("MAX_GATHERED"), MAX_GATHERED.to_string());
    assert_eq!(defined("INDEX_ROOM"), "(4 * FLANGEMINT_MAX_BOXES)");
    assert_eq!(INDEX_ROOM, 4 * MAX_BOXES);
    assert_eq!(defined("TRACK_ROOM"), "((FLANGEMINT_MAX_BOXES - 20) / 7 + 1)");
    assert_eq!(TRACK_ROOM, (MAX_BOXES - 20) / 7 + 1);
}

#[test]
fn version() {
    assert_eq!(defined("VERSION"), format!("{VERSION:?}"));
    let parts = ["MAJOR", "MINOR", "PATCH"].map(|part| defined(&format!("VERSION_{part}")));
    assert_eq!(parts.join("."), VERSION);
}
