//! `flangemint batch`.

use crate::folder::{track_t, Folder};
use crate::run::{command, run, run_with, Ran};
use serde_json::{json, Value};
use std::io::{BufRead, BufReader};

fn lines(ran: &Ran) -> Vec<Value> {
    ran.out.lines().map(|line| serde_json::from_str(line).unwrap()).collect()
}

/// A good track, one with another boundary, one with a broken clock.
fn folder(name: &str) -> Folder {
    let folder = Folder::new(name);
    folder.put("a.mp4", &track_t(2, |_| ()));
    folder.put("b c.mp4", &track_t(2, |track| track.chunks[1].runs[0].samples[1].duration += 1));
    folder.put("bad.mp4", &track_t(2, |track| track.chunks[1].start += 1));
    folder
}

#[test]
fn in_order_with_a_missing_set() {
    let folder = folder("in_order_with_a_missing_set");
    let list =
        "# the ladder\na.mp4\ta.mp4\n\nbad.mp4\r\nnowhere.mp4\ta.mp4\na.mp4\tb c.mp4\nb c.mp4";
    folder.put("list", list.as_bytes());
    let ran = run(&folder, &["batch", "list"]);
    assert_eq!((ran.status, ran.err.as_str()), (2, ""));
    let found: Vec<Value> = lines(&ran)
        .iter()
        .map(|one| json!([one["line"], one["verdict"], one["number"], one["files"]]))
        .collect();
    let expected = [
        json!([2, "accepted", 0, ["a.mp4", "a.mp4"]]),
        json!([4, "refused", 19, ["bad.mp4"]]),
        json!([5, "not judged", null, ["nowhere.mp4", "a.mp4"]]),
        json!([6, "refused", 28, ["a.mp4", "b c.mp4"]]),
        json!([7, "accepted", 0, ["b c.mp4"]]),
    ];
    assert_eq!(found, expected);
    let lines = lines(&ran);
    assert_eq!(lines[2]["error"], "nowhere.mp4: No such file or directory");
    assert_eq!(lines[1]["refusal"]["box"]["path"], "moof[1]/traf/tfdt");
    assert_eq!(lines[0].get("boundaries"), None);

    // The same from standard input, and by one thread.
    let piped = run_with(&folder, &["batch", "-"], list.as_bytes());
    assert_eq!((piped.status, piped.out), (2, ran.out.clone()));
    let single = run(&folder, &["batch", "--jobs", "1", "list"]);
    assert_eq!((single.status, single.out), (2, ran.out));
}

#[test]
fn statuses() {
    let folder = folder("statuses");
    let status = |list: &str| run_with(&folder, &["batch", "-"], list.as_bytes()).status;
    assert_eq!(status(""), 0);
    assert_eq!(status("a.mp4\na.mp4\n"), 0);
    assert_eq!(status("a.mp4\nbad.mp4\na.mp4\n"), 1);
    assert_eq!(status("bad.mp4\nnowhere\na.mp4\n"), 2);
}

#[test]
fn lines_that_are_no_set() {
    let folder = folder("lines_that_are_no_set");
    let many = vec!["a.mp4"; 17].join("\t");
    let list = format!("a.mp4\t\n-\n{many}\n.\n");
    let ran = run_with(&folder, &["batch", "-"], list.as_bytes());
    assert_eq!(ran.status, 2);
    let errors: Vec<_> =
        lines(&ran).iter().map(|one| one["error"].as_str().unwrap().to_owned()).collect();
    assert_eq!(errors[0], "an empty file name");
    assert!(errors[1].starts_with("standard input (-) can't be a track"), "{errors:?}");
    assert_eq!(errors[2], "17 files: a set has at most 16 tracks");
    assert_eq!(errors[3], ".: is a directory");
    run(&folder, &["batch", "nowhere"]).assert_not_judged("nowhere: No such file");
    run(&folder, &["batch", "."]).assert_not_judged(".: Is a directory");
    run(&folder, &["batch", "--jobs", "0", "-"]).assert_not_judged("--jobs");
}

#[test]
fn a_long_list_keeps_its_order() {
    let folder = folder("a_long_list_keeps_its_order");
    // A large file among small ones, so that answers overtake each other.
    std::fs::File::create(folder.path("large")).unwrap().set_len(32 << 20).unwrap();
    let name =
        |nth: usize| if nth.is_multiple_of(97) { "large" } else { ["a.mp4", "bad.mp4"][nth % 2] };
    let list: String = (0..3000).map(|nth| name(nth).to_owned() + "\n").collect();
    let ran = run_with(&folder, &["batch", "--jobs", "4", "--boundaries", "-"], list.as_bytes());
    assert_eq!((ran.status, ran.err.as_str()), (1, ""));
    let lines = lines(&ran);
    assert_eq!(lines.len(), 3000);
    for (nth, line) in lines.iter().enumerate() {
        assert_eq!(
            (line["line"].as_u64(), line["files"][0].as_str()),
            (Some(nth as u64 + 1), Some(name(nth)))
        );
        assert_eq!(line.get("boundaries").is_some(), line["verdict"] == "accepted");
    }
}

/// A reader that goes away ends the batch: the rest is not judged, and the status says so.
#[test]
fn a_closed_pipe() {
    let folder = folder("batch_a_closed_pipe");
    folder.put("list", "a.mp4\n".repeat(100_000).as_bytes());
    let mut child = command(&folder, &["batch", "list"]).spawn().unwrap();
    let mut reader = BufReader::new(child.stdout.take().unwrap());
    let mut line = String::new();
    reader.read_line(&mut line).unwrap();
    drop(reader);
    let ran = Ran::of(child.wait_with_output().unwrap());
    assert_eq!(ran.status, 2);
    assert_eq!(
        ran.err,
        "flangemint: standard output was closed: the rest of the list is not judged\n"
    );
    assert_eq!(serde_json::from_str::<Value>(&line).unwrap()["verdict"], "accepted");
}
