//! Inputs around the limits: 1 GiB, as sparse files, in one test, so that few of them are in memory
//! at once; and 65,536 boxes.

use crate::folder::{boxes_t, track_t, Folder};
use crate::run::{run, run_with};
use maker::node::{self, Node};
use std::fs::File;
use std::io::Write;

const LIMIT: u64 = 1 << 30;

/// Makes a file of this length that begins with these bytes.
fn sparse(folder: &Folder, name: &str, start: &[u8], length: u64) {
    let mut file = File::create(folder.path(name)).unwrap();
    file.write_all(start).unwrap();
    file.set_len(length).unwrap();
}

/// T with one fragment and a last sample so large that the track has this length.
fn long_track(length: u64) -> Vec<u8> {
    let size = |last: u32| {
        let mut bytes = track_t(1, |track| track.chunks[0].runs[0].samples[1].size = last);
        let length = bytes.len() as u64;
        bytes.truncate(2048);
        (bytes, length)
    };
    let (_, least) = size(0);
    let (start, reached) = size((length - least) as u32);
    assert_eq!(reached, length);
    start
}

#[test]
fn around_the_limit() {
    let folder = Folder::new("around_the_limit");
    sparse(&folder, "longest.mp4", &long_track(LIMIT), LIMIT);
    let ran = run(&folder, &["check", "longest.mp4"]);
    assert_eq!(
        (ran.status, ran.first_line()),
        (0, "accepted tracks 1 fragments 1 timescale 90000")
    );

    sparse(&folder, "over.mp4", &[], LIMIT + 1);
    let ran = run(&folder, &["check", "over.mp4"]);
    assert_eq!((ran.status, ran.first_line(), ran.err.as_str()), (1, "refused 1 track 0 at 0", ""));
    assert!(ran.out.contains("found     more than 1073741824 bytes"), "{}", ran.out);
    let ran = run(&folder, &["boxes", "over.mp4"]);
    assert_eq!((ran.status, ran.out.lines().count()), (1, 2), "{}", ran.out);

    // Two tracks, good by themselves and too long together: the bundle has 12 bytes of its own.
    sparse(&folder, "half.mp4", &long_track(LIMIT / 2 - 6), LIMIT / 2 - 6);
    let ran = run(&folder, &["check", "half.mp4", "half.mp4"]);
    assert_eq!(
        (ran.status, ran.first_line()),
        (0, "accepted tracks 2 fragments 1 timescale 90000")
    );
    sparse(&folder, "more.mp4", &long_track(LIMIT / 2 - 5), LIMIT / 2 - 5);
    let ran = run(&folder, &["check", "--each", "half.mp4", "more.mp4", "half.mp4"]);
    assert_eq!((ran.status, ran.first_line()), (1, "refused 1 track 0 at 0"));
    assert_eq!(ran.out.matches(".mp4: accepted fragments 1").count(), 3, "{}", ran.out);

    run(&folder, &["pack", "half.mp4", "more.mp4", "-o", "b"])
        .assert_not_judged("over 1073741824 bytes");
    run(&folder, &["pack", "over.mp4", "-o", "b"]).assert_not_judged("over 1073741824 bytes");
    assert_eq!(folder.names(), ["half.mp4", "longest.mp4", "more.mp4", "over.mp4"]);
}

/// T with so many of the smallest chunks that there are, each a fragment of one tick: 7 boxes, 92
/// bytes.
fn small_chunks(chunks: u64) -> Vec<Node> {
    boxes_t(chunks, |track| {
        track.trex.duration = 1;
        for (start, chunk) in (0..).zip(&mut track.chunks) {
            let run = &mut chunk.runs[0];
            (chunk.start, run.flags, run.count) = (start, 0x1, 1);
            run.samples.clear();
        }
    })
}

#[test]
fn as_many_boxes_as_there_can_be() {
    let folder = Folder::new("as_many_boxes_as_there_can_be");
    let mut boxes = small_chunks(9359);
    node::fill_up(&mut boxes, 65_536);
    let full = node::bytes(&boxes);
    folder.put("full.mp4", &full);
    let accepted = "accepted tracks 1 fragments 9359 timescale 90000";
    let ran = run(&folder, &["check", "full.mp4"]);
    assert_eq!((ran.status, ran.first_line()), (0, accepted));
    assert!(ran.out.contains("  9350 more are left out"), "{}", ran.out);
    let object = run(&folder, &["check", "--json", "full.mp4"]).json();
    let boundaries: Vec<u64> = (0..=9359).collect();
    assert_eq!(object["boundaries"], serde_json::json!(boundaries));
    let ran = run(&folder, &["boxes", "full.mp4"]);
    assert_eq!((ran.status, ran.first_line(), ran.out.lines().count()), (0, accepted, 65_537));
    let ran = run_with(&folder, &["stream"], &full);
    assert_eq!((ran.status, ran.first_line()), (0, accepted));
    let ran = run(&folder, &["report", "full.mp4", "full.mp4", "-o", "-"]);
    assert_eq!(ran.status, 0);
    assert!(ran.out.contains("accepted tracks 2 fragments 9359") && ran.out.len() < 50_000);
}

#[test]
fn a_box_too_many() {
    let folder = Folder::new("a_box_too_many");
    let boxes = small_chunks(9360);
    let place = node::place_of_nth(&boxes, 65_536).unwrap();
    let over = node::bytes(&boxes);
    folder.put("over.mp4", &over);
    let refused = format!("refused 5 track 0 at {place}");
    let ran = run(&folder, &["check", "over.mp4"]);
    assert_eq!((ran.status, ran.first_line()), (1, refused.as_str()));
    assert!(ran.out.contains("box       moof[9359]/traf/tfhd at byte"), "{}", ran.out);
    assert!(ran.out.contains("found     a further box after 65536"), "{}", ran.out);
    let ran = run(&folder, &["boxes", "over.mp4"]);
    assert_eq!((ran.status, ran.first_line()), (1, refused.as_str()));
    assert!(ran.out.ends_with("    tfhd  <- refused 5\n"));
    let ran = run_with(&folder, &["stream"], &over);
    assert_eq!((ran.status, ran.first_line()), (1, refused.as_str()));
}
