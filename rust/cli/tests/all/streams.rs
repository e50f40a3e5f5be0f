//! Streams that end badly: no panic, no signal, a status that says what happened.

use crate::folder::{track_t, Folder};
use crate::run::{command, run, Ran};
use std::fs::File;
use std::io::Write;
use std::process::Stdio;

fn full() -> Stdio {
    Stdio::from(File::options().write(true).open("/dev/full").unwrap())
}

/// Nobody reads: the status is as if somebody had.
#[test]
fn a_closed_pipe() {
    let folder = Folder::new("a_closed_pipe");
    for (fragments, shift, status) in [(2, 0, 0), (2, 1, 1)] {
        for word in ["check", "stream", "boxes"] {
            let mut child = command(&folder, &[word, "-"]).stdin(Stdio::piped()).spawn().unwrap();
            // Closed before it has read what it answers about.
            drop(child.stdout.take());
            let bytes = track_t(fragments, |track| track.chunks[1].start += shift);
            child.stdin.take().unwrap().write_all(&bytes).unwrap();
            let ran = Ran::of(child.wait_with_output().unwrap());
            assert_eq!((ran.status, ran.err.as_str()), (status, ""), "{word}");
        }
    }
}

/// Half a bundle is none.
#[test]
fn a_bundle_that_nobody_reads() {
    let folder = Folder::new("a_bundle_that_nobody_reads");
    let mut child =
        command(&folder, &["pack", "-", "-o", "-"]).stdin(Stdio::piped()).spawn().unwrap();
    drop(child.stdout.take());
    child.stdin.take().unwrap().write_all(&track_t(2, |_| ())).unwrap();
    Ran::of(child.wait_with_output().unwrap()).assert_not_judged("standard output was closed");
}

#[test]
fn a_full_disk() {
    let folder = Folder::new("a_full_disk");
    folder.put("track.mp4", &track_t(2, |_| ()));
    folder.put("list", b"track.mp4\ntrack.mp4\n");
    let calls: [&[&str]; 10] = [
        &["check", "track.mp4"],
        &["check", "--json", "track.mp4"],
        &["stream"],
        &["stream", "--json"],
        &["boxes", "track.mp4"],
        &["explain", "19"],
        &["pack", "track.mp4", "-o", "-"],
        &["batch", "list"],
        &["--help"],
        &["--version"],
    ];
    for call in calls {
        let ran = Ran::of(command(&folder, call).stdout(full()).output().unwrap());
        assert_eq!(ran.status, 2, "{call:?}");
        assert_eq!(ran.err, "flangemint: standard output: No space left on device\n", "{call:?}");
    }
}

/// Even a complaint that can't be written is no panic.
#[test]
fn no_room_for_complaints() {
    let folder = Folder::new("no_room_for_complaints");
    for call in [&["check", "nowhere"][..], &["explain", "30"], &["stream", "track.mp4"], &[]] {
        let ran = Ran::of(command(&folder, call).stderr(full()).output().unwrap());
        assert_eq!((ran.status, ran.out.as_str()), (2, ""), "{call:?}");
    }
}

/// Progress is for terminals: a pipe gets none, whatever the file's size.
#[test]
fn standard_error_is_silent() {
    let folder = Folder::new("standard_error_is_silent");
    File::create(folder.path("large")).unwrap().set_len(80 << 20).unwrap();
    let ran = run(&folder, &["check", "large"]);
    assert_eq!((ran.status, ran.first_line(), ran.err.as_str()), (1, "refused 3 track 0 at 0", ""));
}
