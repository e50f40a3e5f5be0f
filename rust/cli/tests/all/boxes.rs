//! `flangemint boxes`.

use crate::folder::Folder;
use crate::run::{run, run_with};

#[test]
fn the_refused_box_is_marked() {
    let folder = Folder::new("the_refused_box_is_marked");
    folder.unpack("bad-time-plus-one");
    let ran = run(&folder, &["boxes", "bad-time-plus-one-0.mp4"]);
    assert_eq!(
        (ran.status, ran.first_line(), ran.err.as_str()),
        (1, "refused 19 track 0 at 2419", "")
    );
    let marked: Vec<&str> = ran.out.lines().filter(|line| line.contains("<- refused 19")).collect();
    assert_eq!(marked, ["        2419           20     tfdt  <- refused 19"]);
    assert!(!ran.out.contains("read these boxes"), "the index lists them");
    assert_eq!(ran.out.lines().nth(1), Some("           0           28 ftyp"));
    assert_eq!(ran.out.lines().count(), 1 + 49);
}

#[test]
fn a_good_track_has_no_mark() {
    let folder = Folder::new("a_good_track_has_no_mark");
    folder.unpack("good-h264");
    let ran = run(&folder, &["boxes", "good-h264-0.mp4"]);
    assert_eq!(
        (ran.status, ran.first_line()),
        (0, "accepted tracks 1 fragments 4 timescale 90000")
    );
    assert!(!ran.out.contains("<-"));

    let object = run(&folder, &["boxes", "--json", "good-h264-0.mp4"]).json();
    assert_eq!(
        (object["verdict"].as_str(), object["listed"].as_str()),
        (Some("accepted"), Some("index"))
    );
    let boxes = object["boxes"].as_array().unwrap();
    assert_eq!(boxes.len(), 49);
    assert_eq!(boxes[1]["path"], "moov");
    let last = &boxes[48];
    assert_eq!((last["path"].as_str(), last["type"].as_str()), (Some("mdat[3]"), Some("mdat")));
    assert_eq!(
        (last["offset"].as_u64(), last["size"].as_u64(), last["depth"].as_u64()),
        (Some(4655), Some(810), Some(0))
    );
}

/// Of a badly framed track the command reads the boxes itself, up to the place, and says so.
#[test]
fn bad_framing_is_read_up_to_the_place() {
    let folder = Folder::new("bad_framing_is_read_up_to_the_place");
    folder.unpack("bad-cut-upload");
    let ran = run(&folder, &["boxes", "bad-cut-upload-0.mp4"]);
    assert_eq!((ran.status, ran.first_line()), (1, "refused 4 track 0 at 2563"));
    assert!(ran.out.contains("the command itself read these boxes"));
    assert!(ran.out.ends_with("        2563          816 mdat  <- refused 4\n"), "{}", ran.out);
    let object = run(&folder, &["boxes", "--json", "bad-cut-upload-0.mp4"]).json();
    assert_eq!((object["listed"].as_str(), object["place"].as_u64()), (Some("bytes"), Some(2563)));
    let boxes = object["boxes"].as_array().unwrap();
    let last = boxes.last().unwrap();
    assert_eq!((last["path"].as_str(), last["refused"].as_bool()), (Some("mdat[1]"), Some(true)));
    assert_eq!(boxes.iter().filter(|one| one.get("refused").is_some()).count(), 1);
}

#[test]
fn a_place_without_a_box() {
    let folder = Folder::new("a_place_without_a_box");
    let marked = |bytes: &[u8]| {
        let ran = run_with(&folder, &["boxes", "-"], bytes);
        assert_eq!(ran.status, 1);
        ran.out.lines().last().unwrap().trim_start().to_owned()
    };
    assert_eq!(marked(b""), "0            - end of the track  <- refused 6");
    assert_eq!(marked(b"\0\0\0\x08ftyp\0"), "8            - no box can be read here  <- refused 2");
    assert_eq!(marked(b"\0\0\0\x08ftyp"), "8            - end of the track  <- refused 6");
    // Letters that are none.
    assert_eq!(marked(b"\0\0\0\x07\xa9\n\"x"), "0            7 \\xa9\\n\\\"x  <- refused 3");
    run(&folder, &["boxes", "nowhere"]).assert_not_judged("nowhere: No such file");
}
