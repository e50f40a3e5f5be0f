//! `flangemint check`.

use crate::folder::{boxes_t, continues, sample, samples, track_t, tracks, Folder};
use crate::run::{run, run_with, with_names};
use maker::node;
use serde_json::{json, Value};
use std::ffi::OsStr;
use std::fs;
use std::os::unix::ffi::OsStrExt;

/// The first line and the boundaries of every sample are those that `intake` prints.
#[test]
fn samples_as_intake_prints_them() {
    let folder = Folder::new("samples_as_intake_prints_them");
    let expected = fs::read_to_string(samples().join("expected.txt")).unwrap();
    let mut seen = 0;
    for part in expected.split("== ").skip(1) {
        let mut lines = part.lines();
        let name = samples().join(lines.next().unwrap());
        let line = lines.next().unwrap();
        let boundaries: Vec<u64> = lines.map(|line| line.parse().unwrap()).collect();
        let accepted = line.starts_with("accepted");

        let ran = run(&folder, &[OsStr::new("check"), OsStr::new("--bundle"), name.as_os_str()]);
        assert_eq!(ran.first_line(), line, "{name:?}");
        assert_eq!((ran.status, ran.err.as_str()), (i32::from(!accepted), ""), "{name:?}");

        let words = ["check", "--json", "--bundle"].map(OsStr::new);
        let ran = run(&folder, &[&words[..], &[name.as_os_str()]].concat());
        let object = ran.json();
        assert_eq!(ran.status, i32::from(!accepted));
        assert_eq!(
            object.get("boundaries"),
            accepted.then(|| json!(boundaries)).as_ref(),
            "{name:?}"
        );
        seen += 1;
    }
    assert_eq!(seen, fs::read_dir(samples()).unwrap().filter(is_bundle).count());
}

fn is_bundle(entry: &std::io::Result<fs::DirEntry>) -> bool {
    entry.as_ref().unwrap().path().extension() == Some(OsStr::new("bundle"))
}

#[test]
fn a_ladder_is_accepted() {
    let folder = Folder::new("a_ladder_is_accepted");
    let names = folder.unpack("good-ladder");
    let ran = run(&folder, &with_names(&["check"], &names));
    assert_eq!((ran.status, ran.err.as_str()), (0, ""));
    let expected = "\
accepted tracks 3 fragments 4 timescale 90000

  file      good-ladder-0.mp4
  file      good-ladder-1.mp4
  file      good-ladder-2.mp4
  time      0.000000 s to 4.000000 s

Boundaries, in ticks and seconds:
           0  0.000000 s
       90000  1.000000 s
      180000  2.000000 s
      270000  3.000000 s
      360000  4.000000 s
";
    assert_eq!(ran.out, expected);
}

#[test]
fn a_broken_clock_is_explained() {
    let folder = Folder::new("a_broken_clock_is_explained");
    let names = folder.unpack("bad-time-plus-one");
    let ran = run(&folder, &with_names(&["check"], &names));
    assert_eq!((ran.status, ran.err.as_str()), (1, ""));
    let expected = "\
refused 19 track 0 at 2419

  file      bad-time-plus-one-0.mp4
  box       moof[1]/traf/tfdt at byte 2419, size 20
  chunk     1 (the first is 0), at 1.000000 s, the first of fragment 1
  found     decode time 90001 (1.000011 s)
  expected  decode time 90000 (1.000000 s), where the chunk before ended

19. ";
    assert!(ran.out.starts_with(expected), "{}", ran.out);
    for label in ["  Means: ", "  Usual cause: ", "  What to do: "] {
        assert!(ran.out.contains(label), "{label}");
    }
}

/// Fragments of several chunks: one list of boundaries, whatever the chunks.
#[test]
fn a_low_latency_ladder_is_accepted() {
    let folder = Folder::new("a_low_latency_ladder_is_accepted");
    let names = folder.unpack("good-low-latency");
    let ran = run(&folder, &with_names(&["check"], &names));
    assert_eq!((ran.status, ran.err.as_str()), (0, ""));
    let expected = "\
accepted tracks 3 fragments 2 timescale 90000

  file      good-low-latency-0.mp4
  file      good-low-latency-1.mp4
  file      good-low-latency-2.mp4
  time      0.000000 s to 4.000000 s
  chunks    8, 8, 100

Boundaries, in ticks and seconds:
           0  0.000000 s
      180000  2.000000 s
      360000  4.000000 s
";
    assert_eq!(ran.out, expected);

    let object = run(&folder, &with_names(&["check", "--each", "--json"], &names)).json();
    assert_eq!(
        (&object["boundaries"], object.get("chunks")),
        (&json!([0, 180_000, 360_000]), None)
    );
    let halves = json!([[0, 46_800, 93_600, 140_400], [180_000, 226_800, 273_600, 320_400]]);
    assert_eq!((&object["each"][0]["chunks"], &object["each"][1]["chunks"]), (&halves, &halves));
    let pictures = &object["each"][2]["chunks"];
    let lengths: Vec<_> = (0..2).map(|nth| pictures[nth].as_array().unwrap().len()).collect();
    assert_eq!((lengths, &pictures[1][1]), (vec![50, 50], &json!(183_600)));
    let object = run(&folder, &["check", "--json", &names[0]]).json();
    assert_eq!((&object["chunks"], &object["fragments"]), (&halves, &json!(2)));
}

/// A chunk inside a fragment, and a fragment that begins a chunk late.
#[test]
fn chunks_and_fragments_are_told_apart() {
    let folder = Folder::new("chunks_and_fragments_are_told_apart");
    let names = folder.unpack("bad-chunk-plus-one");
    let ran = run(&folder, &with_names(&["check"], &names));
    let expected = "\
refused 19 track 0 at 3580

  file      bad-chunk-plus-one-0.mp4
  box       moof[5]/traf/tfdt at byte 3580, size 20
  chunk     5 (the first is 0), at 2.520000 s, in fragment 1
  found     decode time 226801 (2.520011 s)
  expected  decode time 226800 (2.520000 s), where the chunk before ended
";
    assert!(ran.out.starts_with(expected), "{}", ran.out);
    let refusal = run(&folder, &with_names(&["check", "--json"], &names)).json()["refusal"].take();
    let part = |number: u64, start: u64, seconds: f64| -> Value {
        json!({"number": number, "start": start, "timescale": 90_000, "seconds": seconds})
    };
    assert_eq!(refusal["chunk"], part(5, 226_800, 2.52));
    assert_eq!(refusal["fragment"], part(1, 180_000, 2.0));

    let names = folder.unpack("bad-low-latency-moved");
    let object = run(&folder, &with_names(&["check", "--json"], &names)).json();
    let refusal = &object["refusal"];
    assert_eq!((&object["number"], &refusal["box"]["path"]), (&json!(28), &json!("moof[5]")));
    assert_eq!(refusal["chunk"], part(5, 226_800, 2.52));
    assert_eq!(refusal["fragment"], part(1, 226_800, 2.52));
    assert_eq!(refusal["found"]["number"], 226_800);

    let names = folder.unpack("bad-low-latency-by-time");
    let ran = run(&folder, &with_names(&["check"], &names));
    let words = "found     1 fragment in 8 chunks\n  expected  2 fragments as in track 0\n";
    assert!(ran.out.contains(words), "{}", ran.out);
}

/// Where the chunks before the refused one are bad too, its time is not known; which fragment it
/// begins or continues still is, as its own bytes tell it.
#[test]
fn fragments_behind_a_bad_front() {
    let folder = Folder::new("fragments_behind_a_bad_front");
    // Chunk 0 with a gap after it, then fragments of two chunks. The `mdat` of one is left open.
    let refused = |nth: usize| {
        let mut boxes = boxes_t(5, |track| {
            track.chunks[1].start += 1;
            [2, 4].iter().for_each(|nth| continues(&mut track.chunks[*nth]));
        });
        let from = node::bytes(&boxes[..3 + 2 * nth]).len();
        boxes.truncate(4 + 2 * nth);
        let mut bytes = node::bytes(&boxes);
        bytes[from..from + 4].fill(0);
        folder.put("open.mp4", &bytes);
        let ran = run(&folder, &["check", "open.mp4"]);
        assert_eq!(ran.first_line(), format!("refused 3 track 0 at {from}"));
        let line = ran.out.lines().find(|line| line.starts_with("  chunk ")).unwrap();
        line["  chunk     ".len()..].to_owned()
    };
    assert_eq!(refused(0), "0 (the first is 0), the first of fragment 0");
    assert_eq!(refused(2), "2 (the first is 0), in fragment 1");
    assert_eq!(refused(3), "3 (the first is 0), the first of fragment 2");
    assert_eq!(refused(4), "4 (the first is 0), in fragment 2");
}

/// Only the track's first chunk must begin with a sync sample; others go on with their fragment.
#[test]
fn a_track_begins_with_a_sync_sample() {
    let folder = Folder::new("a_track_begins_with_a_sync_sample");
    let non_sync = |nth: usize| track_t(3, |track| continues(&mut track.chunks[nth]));
    folder.put("first.mp4", &non_sync(0));
    folder.put("later.mp4", &non_sync(1));
    let ran = run(&folder, &["check", "first.mp4"]);
    assert!(ran.first_line().starts_with("refused 21 track 0 at "), "{}", ran.out);
    let words = "  chunk     0 (the first is 0), at 0.000000 s, the first of fragment 0\n  \
                 found     flags 0x00010000 of the track's first sample, by the first-sample flags";
    assert!(ran.out.contains(words), "{}", ran.out);
    let ran = run(&folder, &["check", "later.mp4"]);
    assert_eq!(
        (ran.status, ran.first_line()),
        (0, "accepted tracks 1 fragments 2 timescale 90000")
    );
    assert!(ran.out.contains("  chunks    3\n"), "{}", ran.out);
}

/// What stands in the refused track and in track 0.
#[test]
fn refused_sets_show_both_sides() {
    let folder = Folder::new("refused_sets_show_both_sides");
    let cases = [
        ("bad-set-sound", 25, Value::Null, Value::Null),
        ("bad-set-timescale", 26, json!(12_800), json!(90_000)),
        ("bad-ladder-short", 27, json!(3), json!(4)),
        ("bad-ladder-shifted", 28, json!(1), json!(0)),
    ];
    for (name, number, found, expected) in cases {
        let names = folder.unpack(name);
        let ran = run(&folder, &with_names(&["check", "--json"], &names));
        let object = ran.json();
        assert_eq!((ran.status, object["number"].as_u64()), (1, Some(number)), "{name}");
        let refusal = &object["refusal"];
        assert_eq!(refusal["found"]["number"], found, "{name}");
        assert_eq!(refusal["expected"]["number"], expected, "{name}");
        let track = object["track"].as_u64().unwrap() as usize;
        assert_eq!(refusal["file"], names[track], "{name}");
        assert_eq!(object["files"], json!(names), "{name}");
    }
    let ran = run(&folder, &["check", "bad-set-sound-0.mp4", "bad-set-sound-1.mp4"]);
    assert!(ran.out.contains("found     handler soun\n  expected  handler vide"), "{}", ran.out);
}

#[test]
fn each_file_by_itself() {
    let folder = Folder::new("each_file_by_itself");
    let good = folder.unpack("good-h264");
    let clock = folder.unpack("bad-time-plus-one");
    let brand = folder.unpack("bad-brand");
    let names = [good, clock, brand].concat();
    let ran = run(&folder, &with_names(&["check", "--each"], &names));
    assert_eq!(ran.status, 1);
    let expected = [
        "refused 19 track 1 at 2419",
        "",
        "Each file by itself:",
        "  good-h264-0.mp4: accepted fragments 4 timescale 90000",
        "  bad-time-plus-one-0.mp4: refused 19 at 2419 (moof[1]/traf/tfdt): ",
        "  bad-brand-0.mp4: refused 9 at 0 (ftyp): ",
        "",
        "  file      bad-time-plus-one-0.mp4",
    ];
    assert!(ran.out.lines().count() > expected.len(), "{}", ran.out);
    // The title of the number follows, as REFUSALS.md has it.
    for (line, start) in ran.out.lines().zip(expected) {
        assert!(line.starts_with(start) && line.is_empty() == start.is_empty(), "{line}");
    }

    let object = run(&folder, &with_names(&["check", "--each", "--json"], &names)).json();
    let numbers: Vec<_> =
        object["each"].as_array().unwrap().iter().map(|one| &one["number"]).collect();
    assert_eq!(numbers, [0, 19, 9]);
    assert_eq!(object["each"][1]["refusal"]["box"]["path"], "moof[1]/traf/tfdt");
    assert_eq!(object["each"][0]["boundaries"][4], 360_000);
}

/// One of the set is refused together and not alone.
#[test]
fn each_is_good_and_the_set_is_not() {
    let folder = Folder::new("each_is_good_and_the_set_is_not");
    let names = folder.unpack("bad-ladder-shifted");
    let ran = run(&folder, &with_names(&["check", "--each"], &names));
    assert_eq!((ran.status, ran.first_line()), (1, "refused 28 track 1 at 759"));
    assert_eq!(ran.out.matches(".mp4: accepted fragments 4").count(), 3);
}

#[test]
fn boundaries_ten_or_all() {
    let folder = Folder::new("boundaries_ten_or_all");
    folder.put("ten.mp4", &track_t(9, |_| ()));
    folder.put("twelve.mp4", &track_t(11, |_| ()));
    let lines = |ran: &str| {
        ran.lines().filter(|line| line.ends_with(" s") && !line.contains("time")).count()
    };
    let ran = run(&folder, &["check", "ten.mp4"]);
    assert_eq!(lines(&ran.out), 10);
    assert!(!ran.out.contains("left out"));
    let ran = run(&folder, &["check", "twelve.mp4"]);
    assert_eq!(lines(&ran.out), 10);
    assert!(
        ran.out.ends_with("  2 more are left out: --boundaries shows them all\n"),
        "{}",
        ran.out
    );
    let ran = run(&folder, &["check", "--boundaries", "twelve.mp4"]);
    assert_eq!(lines(&ran.out), 12);
    assert!(!ran.out.contains("left out"));
}

/// Ticks over 2^53 are whole in JSON.
#[test]
fn the_last_tick_survives() {
    let folder = Folder::new("the_last_tick_survives");
    let late = |beyond: u64| {
        track_t(1, |track| {
            track.chunks[0].wide_tfdt = true;
            track.chunks[0].start = (1 << 63) - 1 - 180_000 + beyond;
        })
    };
    folder.put("last.mp4", &late(0));
    let ran = run(&folder, &["check", "--json", "last.mp4"]);
    assert!(ran.out.contains("9223372036854775807"), "{}", ran.out);
    assert_eq!(ran.json()["boundaries"][1].as_u64(), Some(i64::MAX as u64));

    folder.put("later.mp4", &late(1));
    let object = run(&folder, &["check", "--json", "later.mp4"]).json();
    assert_eq!(object["refusal"]["found"]["number"].as_u64(), Some(1 << 63));
    assert_eq!(object["refusal"]["expected"]["number"].as_u64(), Some(i64::MAX as u64));

    // An end that no 64 bits hold is told in words alone.
    folder.put("latest.mp4", &late((1 << 63) + 1));
    let object = run(&folder, &["check", "--json", "latest.mp4"]).json();
    assert_eq!(object["refusal"]["found"].get("number"), None);
    assert!(object["refusal"]["found"]["words"].as_str().unwrap().contains("18446744073709551616"));
}

#[test]
fn an_empty_file_is_judged() {
    let folder = Folder::new("an_empty_file_is_judged");
    folder.put("empty.mp4", b"");
    let ran = run(&folder, &["check", "empty.mp4"]);
    assert_eq!((ran.status, ran.first_line(), ran.err.as_str()), (1, "refused 6 track 0 at 0", ""));
    assert!(ran.out.contains("none: the track ends at byte 0"), "{}", ran.out);
    let ran = run(&folder, &["check", "empty.mp4", "empty.mp4"]);
    assert_eq!((ran.status, ran.first_line()), (1, "refused 6 track 0 at 0"));
}

#[test]
fn what_is_not_judged() {
    let folder = Folder::new("what_is_not_judged");
    folder.put("track.mp4", &track_t(2, |_| ()));
    run(&folder, &["check", "track.mp4", "nowhere.mp4"])
        .assert_not_judged("nowhere.mp4: No such file");
    run(&folder, &["check", "."]).assert_not_judged(".: is a directory");
    run(&folder, &["check", "track.mp4/"]).assert_not_judged("track.mp4/: Not a directory");
    run(&folder, &["check", "-", "-"]).assert_not_judged("named twice");
    run(&folder, &["check", "--bundle", "track.mp4", "track.mp4"])
        .assert_not_judged("--bundle takes one");
    run(&folder, &["check"]).assert_not_judged("required");
    run(&folder, &["check", "--loud", "track.mp4"]).assert_not_judged("--loud");
    run(&folder, &["judge"]).assert_not_judged("judge");
    run::<&str>(&folder, &[]).assert_not_judged("a command is missing");
    let many = vec!["track.mp4"; 17];
    run(&folder, &[&["check"], &many[..]].concat())
        .assert_not_judged("17 files: a set has at most 16 tracks");
    let ran = run(&folder, &[&["check"], &many[..16]].concat());
    assert_eq!(
        (ran.status, ran.first_line()),
        (0, "accepted tracks 16 fragments 2 timescale 90000")
    );
}

#[test]
fn names_of_every_kind() {
    let folder = Folder::new("names_of_every_kind");
    let track = track_t(2, |_| ());
    let names: [&[u8]; 4] = [b"with spaces.mp4", b"caf\xe9.mp4", b"two\nlines.mp4", b"--each"];
    for name in names {
        let name = OsStr::from_bytes(name);
        fs::write(folder.0.join(name), &track).unwrap();
        let ran = run(&folder, &[OsStr::new("check"), OsStr::new("--"), name]);
        assert_eq!((ran.status, ran.err.as_str()), (0, ""), "{name:?}");
        assert_eq!(ran.out.lines().count(), 9, "{}", ran.out);
        let ran =
            run(&folder, &[OsStr::new("check"), OsStr::new("--json"), OsStr::new("--"), name]);
        assert_eq!(
            ran.json()["files"][0].as_str().unwrap().matches(".mp4").count(),
            usize::from(name != "--each")
        );
    }
    let ran = run(&folder, &[OsStr::new("check"), OsStr::from_bytes(b"caf\xe9.mp4")]);
    assert!(ran.out.contains("caf\u{fffd}.mp4"), "{}", ran.out);
    let gone = [OsStr::new("check"), OsStr::from_bytes(b"gone\xff.mp4")];
    run(&folder, &gone).assert_not_judged("gone\u{fffd}.mp4: No such file");
}

#[test]
fn standard_input() {
    let folder = Folder::new("standard_input");
    let ladder = tracks(&sample("good-ladder"));
    folder.put("low.mp4", &ladder[0]);
    let ran = run_with(&folder, &["check", "low.mp4", "-"], &ladder[1]);
    assert_eq!(
        (ran.status, ran.first_line()),
        (0, "accepted tracks 2 fragments 4 timescale 90000")
    );
    let ran = run_with(&folder, &["check", "-"], &sample("bad-time-plus-one")[6..]);
    assert_eq!((ran.status, ran.first_line()), (1, "refused 19 track 0 at 2419"));
    // A file of that name.
    folder.put("-", &ladder[2]);
    let ran = run_with(&folder, &["check", "./-"], b"");
    assert_eq!(
        (ran.status, ran.first_line()),
        (0, "accepted tracks 1 fragments 4 timescale 90000")
    );
}

#[test]
fn a_bundle_given_as_a_track_gets_a_note() {
    let folder = Folder::new("a_bundle_given_as_a_track_gets_a_note");
    folder.put("set.bundle", &sample("good-ladder"));
    let ran = run(&folder, &["check", "set.bundle"]);
    assert_eq!((ran.status, ran.first_line()), (1, "refused 4 track 0 at 0"));
    assert!(ran.out.contains("check --bundle"), "{}", ran.out);
}
