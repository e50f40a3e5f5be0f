//! `flangemint stream`.

use crate::folder::{sample, samples, track_t, tracks, Folder};
use crate::run::{command, run, run_with, Ran};
use maker::track::Sample;
use serde_json::json;
use std::fs::{self, File};
use std::io::Write;
use std::process::Stdio;
use std::thread::sleep;
use std::time::Duration;

const LIMIT: usize = 1 << 30;

/// Runs it with this file as standard input.
fn run_on(folder: &Folder, file: File) -> Ran {
    Ran::of(command(folder, &["stream"]).stdin(Stdio::from(file)).output().unwrap())
}

/// Every track of the samples gets the line that `check` prints, and of its boundaries the outer two.
#[test]
fn samples_as_check_prints_them() {
    let folder = Folder::new("stream_samples");
    let mut seen = 0;
    for entry in fs::read_dir(samples()).unwrap() {
        let name = entry.unwrap().file_name().into_string().unwrap();
        let Some(name) = name.strip_suffix(".bundle").filter(|name| *name != "bad-ladder-cut")
        else {
            continue;
        };
        for track in tracks(&sample(name)) {
            let checked = run_with(&folder, &["check", "-"], &track);
            let ran = run_with(&folder, &["stream"], &track);
            assert_eq!(ran.first_line(), checked.first_line(), "{name}");
            assert_eq!((ran.status, ran.err.as_str()), (checked.status, ""), "{name}");
            let checked = run_with(&folder, &["check", "--json", "-"], &track).json();
            let object = run_with(&folder, &["stream", "--json"], &track).json();
            if let Some(boundaries) = checked["boundaries"].as_array() {
                assert_eq!(object["first"], boundaries[0], "{name}");
                assert_eq!(object["last"], boundaries[boundaries.len() - 1], "{name}");
            }
            for field in ["verdict", "number", "track", "place", "tracks", "fragments", "timescale"]
            {
                assert_eq!(object.get(field), checked.get(field), "{name} {field}");
            }
            seen += 1;
        }
    }
    assert!(seen > 20, "{seen} tracks");
}

#[test]
fn an_accepted_track() {
    let folder = Folder::new("stream_accepted");
    let track = &tracks(&sample("good-aac"))[0];
    let ran = run_with(&folder, &["stream"], track);
    assert_eq!((ran.status, ran.err.as_str()), (0, ""));
    let expected = "\
accepted tracks 1 fragments 5 timescale 48000

  file      -
  time      0.000000 s to 4.021333 s

First and last boundary, in ticks and seconds:
           0  0.000000 s
      193024  4.021333 s
";
    assert_eq!(ran.out, expected);
    let object = run_with(&folder, &["stream", "--json"], track).json();
    let expected = json!({
        "verdict": "accepted", "number": 0, "track": 0, "place": 0, "files": ["-"], "tracks": 1,
        "bytes": track.len(), "fragments": 5, "timescale": 48_000, "first": 0, "last": 193_024,
    });
    assert_eq!(object, expected);
}

/// Number and place are explained; no box is named, as nothing is kept.
#[test]
fn a_refused_track() {
    let folder = Folder::new("stream_refused");
    let track = &tracks(&sample("bad-time-plus-one"))[0];
    let ran = run_with(&folder, &["stream"], track);
    assert_eq!((ran.status, ran.err.as_str()), (1, ""));
    let expected = "\
refused 19 track 0 at 2419

  file      -
  place     byte 2419 of 5465
  note      nothing of the track is kept: `flangemint check` names the box and what stands there

19. ";
    assert!(ran.out.starts_with(expected), "{}", ran.out);
    for label in ["  Means: ", "  Place: `tfdt` ", "  Usual cause: ", "  What to do: "] {
        assert!(ran.out.contains(label), "{label}");
    }
    let object = run_with(&folder, &["stream", "--json"], track).json();
    assert_eq!((object["bytes"].as_u64(), object.get("first")), (Some(5465), None));
    let refusal = &object["refusal"];
    assert_eq!(refusal["title"], "Decode time does not continue");
    for field in ["box", "around", "end", "chunk", "fragment", "found", "expected"] {
        assert_eq!(refusal.get(field), None, "{field}");
    }

    let ran = run(&folder, &["stream"]);
    assert_eq!((ran.status, ran.first_line()), (1, "refused 6 track 0 at 0"));
    assert!(ran.out.contains("place     byte 0, where the track ends\n"), "{}", ran.out);
    assert_eq!(run(&folder, &["stream", "--json"]).json()["refusal"]["end"], true);

    let ran = run_with(&folder, &["stream"], &sample("good-ladder"));
    assert_eq!((ran.status, ran.first_line()), (1, "refused 4 track 0 at 0"));
    assert!(ran.out.contains("check --bundle"), "{}", ran.out);
}

/// T whose first chunk has so many samples, each with a duration and a size.
fn samples_in_a_table(count: u32) -> Vec<u8> {
    track_t(1, |track| {
        let run = &mut track.chunks[0].runs[0];
        run.count = count;
        run.samples = vec![Sample { duration: 1, size: 1, ..Sample::default() }; count as usize];
    })
}

/// A `moof` has 84 bytes and 8 a sample.
#[test]
fn a_large_box() {
    let folder = Folder::new("stream_large_box");
    let ran = run_with(&folder, &["stream"], &samples_in_a_table(4085));
    assert_eq!(ran.first_line(), "accepted tracks 1 fragments 1 timescale 90000");
    for count in [4086, 65_536] {
        let track = samples_in_a_table(count);
        let moof = track.windows(4).position(|four| four == b"moof").unwrap() - 4;
        let ran = run_with(&folder, &["stream"], &track);
        let line = format!("refused 29 track 0 at {moof}");
        assert_eq!((ran.status, ran.first_line()), (1, line.as_str()));
        assert!(ran.out.contains("found     a ftyp, moov or moof of more than 32768 bytes\n"));
        assert!(ran.out.contains("note      `flangemint check` has no such limit"), "{}", ran.out);
        let object = run_with(&folder, &["stream", "--json"], &track).json();
        assert_eq!(object["refusal"]["expected"]["number"], 32_768);
        let ran = run_with(&folder, &["check", "-"], &track);
        assert_eq!(ran.first_line(), "accepted tracks 1 fragments 1 timescale 90000");
    }
    // The size field counts, whether or not its bytes arrive, and comes before 4.
    for (size, line) in [(32_768, "refused 4 track 0 at 0"), (32_769, "refused 29 track 0 at 0")] {
        let cut = [&u32::to_be_bytes(size)[..], b"ftyp"].concat();
        assert_eq!(run_with(&folder, &["stream"], &cut).first_line(), line);
    }
}

/// A writer that takes its time: the answer waits for the end, and is the same.
#[test]
fn a_slow_writer() {
    let folder = Folder::new("stream_slow");
    let track = &tracks(&sample("good-h264"))[0];
    let mut child = command(&folder, &["stream"]).stdin(Stdio::piped()).spawn().unwrap();
    let mut stdin = child.stdin.take().unwrap();
    let (front, back) = track.split_at(40);
    for piece in front.chunks(3).chain(back.chunks(1000)) {
        stdin.write_all(piece).unwrap();
        sleep(Duration::from_millis(10));
    }
    assert!(child.try_wait().unwrap().is_none(), "it waits for the end");
    drop(stdin);
    let ran = Ran::of(child.wait_with_output().unwrap());
    assert_eq!(ran.out, run_with(&folder, &["stream"], track).out);
    assert_eq!(ran.first_line(), "accepted tracks 1 fragments 4 timescale 90000");
}

/// T with one fragment whose last sample is so large that the track has this length; its front.
fn long_track(length: usize) -> Vec<u8> {
    let made = |last: u32| track_t(1, |track| track.chunks[0].runs[0].samples[1].size = last);
    let least = made(0).len();
    let mut track = made(1);
    // The sizes of `mdat` and of the last sample; zeros follow the front.
    let more = (length - least) as u32;
    let mdat = track.windows(4).position(|four| four == b"mdat").unwrap();
    track[mdat - 4..mdat].copy_from_slice(&(18 + more).to_be_bytes());
    track[mdat - 8..mdat - 4].copy_from_slice(&more.to_be_bytes());
    track.truncate(mdat + 4);
    track
}

/// The most memory that a process had, in bytes.
fn most_memory(id: u32) -> u64 {
    let facts = fs::read_to_string(format!("/proc/{id}/status")).unwrap();
    let line = facts.lines().find(|line| line.starts_with("VmHWM:")).unwrap();
    line.split_whitespace().nth(1).unwrap().parse::<u64>().unwrap() * 1024
}

/// A gibibyte goes through little memory; it is judged, and a byte more is refused.
#[test]
fn around_the_limit() {
    let folder = Folder::new("stream_limit");
    let track = long_track(LIMIT);
    let zeros = vec![0; 1 << 20];
    for (length, status, line) in [
        (LIMIT, 0, "accepted tracks 1 fragments 1 timescale 90000"),
        (LIMIT + 1, 1, "refused 1 track 0 at 0"),
    ] {
        let mut child = command(&folder, &["stream"]).stdin(Stdio::piped()).spawn().unwrap();
        let mut stdin = child.stdin.take().unwrap();
        stdin.write_all(&track).unwrap();
        let mut left = length - track.len();
        while left > zeros.len() {
            stdin.write_all(&zeros).unwrap();
            left -= zeros.len();
        }
        let memory = most_memory(child.id());
        assert!(memory < 32 << 20, "{memory} bytes of memory");
        stdin.write_all(&zeros[..left]).unwrap();
        drop(stdin);
        let ran = Ran::of(child.wait_with_output().unwrap());
        assert_eq!((ran.status, ran.first_line(), ran.err.as_str()), (status, line, ""));
    }
}

/// A stream without an end: reading stops past the limit.
#[test]
fn without_an_end() {
    let folder = Folder::new("stream_endless");
    let ran = run_on(&folder, File::open("/dev/zero").unwrap());
    assert_eq!((ran.status, ran.first_line()), (1, "refused 1 track 0 at 0"));
    assert!(ran.out.contains("found     more than 1073741824 bytes\n"), "{}", ran.out);
}

#[test]
fn what_is_not_judged() {
    let folder = Folder::new("stream_not_judged");
    folder.put("track.mp4", &track_t(2, |_| ()));
    let usage = "stream reads standard input: flangemint stream < FILE\n";
    run(&folder, &["stream", "track.mp4"]).assert_not_judged(usage);
    run(&folder, &["stream", "--json", "track.mp4", "-"]).assert_not_judged(usage);
    run(&folder, &["stream", "--each"]).assert_not_judged("--each");
    run_on(&folder, File::open(&folder.0).unwrap()).assert_not_judged("-: Is a directory");
    let written = File::options().append(true).open(folder.path("track.mp4")).unwrap();
    run_on(&folder, written).assert_not_judged("-: Bad file descriptor");
    let terminal = File::open("/dev/ptmx").unwrap();
    run_on(&folder, terminal).assert_not_judged("standard input is a terminal");

    let ran = run_on(&folder, File::open(folder.path("track.mp4")).unwrap());
    assert_eq!(
        (ran.status, ran.first_line()),
        (0, "accepted tracks 1 fragments 2 timescale 90000")
    );
    let ran = run_with(&folder, &["stream", "-"], &track_t(2, |_| ()));
    assert_eq!(ran.status, 0, "- is standard input here too");
}
