//! `flangemint pack`.

use crate::folder::{sample, Folder};
use crate::run::{run, run_with, with_names};
use std::fs;

#[test]
fn pack_then_check() {
    let folder = Folder::new("pack_then_check");
    let names = folder.unpack("good-ladder");
    let ran = run(&folder, &with_names(&["pack", "-o", "set.bundle"], &names));
    assert_eq!((ran.status, ran.out.as_str(), ran.err.as_str()), (0, "", ""));
    assert_eq!(fs::read(folder.path("set.bundle")).unwrap(), sample("good-ladder"));
    let ran = run(&folder, &["check", "--bundle", "set.bundle"]);
    assert_eq!(
        (ran.status, ran.first_line()),
        (0, "accepted tracks 3 fragments 4 timescale 90000")
    );
    assert_eq!(folder.names().len(), 4, "nothing is left beside the bundle: {:?}", folder.names());
    // An older bundle is replaced.
    let ran = run(&folder, &["pack", "good-ladder-0.mp4", "--output", "set.bundle"]);
    assert_eq!(ran.status, 0);
    let ran = run(&folder, &["check", "--bundle", "set.bundle"]);
    assert_eq!(ran.first_line(), "accepted tracks 1 fragments 4 timescale 90000");
}

#[test]
fn to_standard_output() {
    let folder = Folder::new("to_standard_output");
    let ran = run_with(&folder, &["pack", "-", "-o", "-"], b"abc");
    assert_eq!((ran.status, ran.out.as_str()), (0, "SW\0\0\0\x03abc"));
    assert_eq!(folder.names(), [""; 0]);
}

#[test]
fn what_is_not_written() {
    let folder = Folder::new("what_is_not_written");
    folder.put("a", b"abc");
    let many = vec!["a"; 17];
    run(&folder, &[&["pack", "-o", "b"], &many[..]].concat()).assert_not_judged("17 files");
    run(&folder, &["pack", "a", "nowhere", "-o", "b"]).assert_not_judged("nowhere: No such file");
    run(&folder, &["pack", "a", "-o", "nowhere/b"]).assert_not_judged("nowhere/b: No such file");
    run(&folder, &["pack", "a", "-o", "."]).assert_not_judged(".: ");
    run(&folder, &["pack", "a"]).assert_not_judged("--output");
    run(&folder, &["pack", "a", "-o", "/dev/full"]).assert_not_judged("/dev/full: No space");
    assert_eq!(folder.names(), ["a"]);
}

/// A track is not lost to the bundle that it goes into, under whatever name.
#[test]
fn a_track_is_no_output() {
    let folder = Folder::new("a_track_is_no_output");
    folder.put("a", b"abc");
    fs::hard_link(folder.path("a"), folder.path("b")).unwrap();
    std::os::unix::fs::symlink("a", folder.path("c")).unwrap();
    for output in ["a", "./a", "b", "c"] {
        run(&folder, &["pack", "a", "-o", output]).assert_not_judged("a: is one of the tracks");
    }
    assert_eq!(fs::read(folder.path("a")).unwrap(), b"abc");
}

/// What a link leads to is replaced, and the link stays.
#[test]
fn a_link_is_followed() {
    let folder = Folder::new("a_link_is_followed");
    folder.put("a", b"abc");
    folder.put("old", b"");
    std::os::unix::fs::symlink("old", folder.path("link")).unwrap();
    assert_eq!(run(&folder, &["pack", "a", "-o", "link"]).status, 0);
    assert_eq!(fs::read(folder.path("old")).unwrap(), b"SW\0\0\0\x03abc");
    assert!(fs::symlink_metadata(folder.path("link")).unwrap().is_symlink());
}
