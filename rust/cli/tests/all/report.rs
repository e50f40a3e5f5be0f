//! `flangemint report`. What a browser makes of a page is tried by tools/report-test.

use crate::folder::{boxes_t, continues, track_t, Folder};
use crate::run::{command, run, run_with, with_names, Ran};
use maker::node::{self, Node};
use maker::track::Track;
use std::fs;

/// The page of these files, with the status and first line that `check` gives them.
#[track_caller]
fn page(folder: &Folder, names: &[String], status: i32, line: &str) -> String {
    let checked = run(folder, &with_names(&["check"], names));
    assert_eq!((checked.status, checked.first_line()), (status, line));
    let ran = run(folder, &with_names(&["report", "-o", "page.html"], names));
    assert_eq!((ran.status, ran.out.as_str(), ran.err.as_str()), (status, "", ""));
    let page = fs::read_to_string(folder.path("page.html")).unwrap();
    assert!(page.starts_with("<!DOCTYPE html>\n<html lang=\"en\">") && page.ends_with("</html>\n"));
    assert!(page.contains(&format!("<code>{line}</code></p>")), "the verdict line");
    assert_eq!((page.matches("<svg ").count(), page.matches("</svg>").count()), (1, 1));
    page
}

/// Where the stretches with this class begin and end, the whole first and the magnified after it.
fn stretches(page: &str, class: &str) -> Vec<(f64, f64)> {
    let number = |text: &str, name: &str| -> f64 {
        let from = text.find(&format!(" {name}=\"")).unwrap() + name.len() + 3;
        text[from..].split('"').next().unwrap().parse().unwrap()
    };
    let begin = format!("<rect class=\"{class}\"");
    let rects = page.split(&begin).skip(1);
    rects.map(|rect| (number(rect, "x"), number(rect, "x") + number(rect, "width"))).collect()
}

/// The words at the mark.
fn marks(page: &str) -> Vec<&str> {
    let texts = page.split("<text class=\"mark ").skip(1);
    texts.map(|text| text.split('>').nth(1).unwrap().split('<').next().unwrap()).collect()
}

/// The same but for what a thin stretch is widened by.
#[track_caller]
fn assert_near(found: f64, expected: f64) {
    assert!((found - expected).abs() < 2.5, "{found} in place of {expected}");
}

#[test]
fn accepted_without_alarm() {
    let folder = Folder::new("report_accepted");
    let names = folder.unpack("good-ladder");
    let page = page(&folder, &names, 0, "accepted tracks 3 fragments 4 timescale 90000");
    assert_eq!((marks(&page).len(), stretches(&page, "refused").len()), (0, 0));
    assert_eq!(stretches(&page, "judged").len(), 3);
    assert!(page.contains("<li><b>270000</b> <span>3.000000 s</span></li>"));
    assert!(!page.contains("left out"));
    assert_eq!(page.matches("accepted fragments 4 timescale 90000</bdi></li>").count(), 3);
}

/// 28 by one tick: too small to see at scale, a third of the magnified view.
#[test]
fn a_boundary_that_differs() {
    let folder = Folder::new("report_28");
    let names = folder.unpack("bad-ladder-shifted");
    let page = page(&folder, &names, 1, "refused 28 track 1 at 759");
    assert_eq!(marks(&page), ["boundary 0 of track 1 is 1 tick late (0.000011 s)"]);
    let [whole, lens] = stretches(&page, "refused")[..] else { panic!("two stretches") };
    let (left, right) = stretches(&page, "panel")[0];
    assert_near(whole.0, left);
    assert!(whole.1 - whole.0 <= 3.0, "{whole:?}");
    assert_near(lens.0, left + (right - left) / 3.0);
    assert_near(lens.1, left + (right - left) * 2.0 / 3.0);
    assert!(page.contains(">expected 0</text>") && page.contains(">found 1</text>"));
    assert!(page.contains("<td><code>moof[0]</code></td><td>◀ refused 28</td>"));
}

#[test]
fn a_track_that_ends_early_or_late() {
    let folder = Folder::new("report_27");
    let names = folder.unpack("bad-ladder-short");
    let short = page(&folder, &names, 1, "refused 27 track 2 at 6227");
    assert_eq!(marks(&short), ["track 2 ends 1 fragment early"]);
    let (left, right) = stretches(&short, "judged")[0];
    let whole = stretches(&short, "refused")[0];
    assert_near(whole.0, left + (right - left) * 0.75);
    assert_near(whole.1, right);
    assert!(short.contains("<td>end of the track</td><td>◀ refused 27</td>"));

    let turned = [names[2].clone(), names[0].clone()];
    let length = fs::metadata(folder.path(&names[0])).unwrap().len();
    let long = page(&folder, &turned, 1, &format!("refused 27 track 1 at {length}"));
    assert_eq!(marks(&long), ["track 1 ends 1 fragment after track 0"]);
    assert_near(stretches(&long, "refused")[0].0, whole.0);
}

/// A gap, an overlap, and a time so far off that an arrow stands for it.
#[test]
fn a_time_that_does_not_continue() {
    let folder = Folder::new("report_19");
    let at = |start: u64, words: &str, beyond: usize| {
        let late = |track: &mut Track| {
            track.chunks[1].start = start;
            track.chunks[1].wide_tfdt = true;
        };
        folder.put("a.mp4", &track_t(3, late));
        let place = run(&folder, &["check", "a.mp4"]).first_line().to_owned();
        assert!(place.starts_with("refused 19 track 0 at "), "{place}");
        let page = page(&folder, &["a.mp4".to_owned()], 1, &place);
        assert_eq!(marks(&page), [words]);
        assert_eq!(page.matches("class=\"beyond\"").count(), beyond, "{words}");
        assert_eq!(page.contains("An arrow stands for chunks beyond"), beyond > 0, "{words}");
        assert!(page.contains(">expected 180000</text>"));
        assert!(page.contains("moof[1]/traf/tfdt</code></td><td>◀ refused 19</td>"));
        stretches(&page, "refused").len()
    };
    assert_eq!(at(180_001, "chunk 1 starts 1 tick late (0.000011 s): a gap", 0), 2);
    assert_eq!(at(90_000, "chunk 1 starts 90000 ticks early (1.000000 s): an overlap", 0), 2);
    let far = "chunk 1 starts 9223372036854595807 ticks late (102481911520606.620078 s): a gap";
    assert_eq!(at(i64::MAX as u64, far, 1), 2);
}

/// A refused box in a chunk marks the chunk; one in the header marks the header.
#[test]
fn the_chunk_or_the_header() {
    let folder = Folder::new("report_chunk");
    let cases = [
        ("bad-data-offset", "refused 22 track 0 at 2439", "chunk 1 is refused", (0.25, 0.5)),
        ("bad-not-sync", "refused 21 track 0 at 843", "chunk 0 is refused", (0.0, 0.25)),
        ("bad-open-mdat", "refused 3 track 0 at 4655", "chunk 3 is refused", (0.75, 1.0)),
    ];
    for (sample, line, words, part) in cases {
        let names = folder.unpack(sample);
        let page = page(&folder, &names, 1, line);
        assert_eq!(marks(&page), [words], "{sample}");
        let (left, right) = stretches(&page, "panel")[0];
        let whole = stretches(&page, "refused")[0];
        assert_near(whole.0, left + (right - left) * part.0);
        assert_near(whole.1, left + (right - left) * part.1);
    }
    let names = folder.unpack("bad-set-timescale");
    let page = page(&folder, &names, 1, "refused 26 track 1 at 252");
    assert_eq!(marks(&page), ["refused before the first fragment"]);
    assert_eq!((stretches(&page, "refused").len(), stretches(&page, "header").len()), (1, 1));
    assert_eq!(stretches(&page, "panel").len(), 0, "a header has no time to magnify");
}

/// A refused box in no chunk is marked where it stands: between two of them, after the last, or in
/// the chunk whose `mdat` it keeps away.
#[test]
fn a_box_beside_the_chunks() {
    let folder = Folder::new("report_beside");
    // Two fragments of two chunks; the boxes are put in at a number of the top level.
    let marked = |late: u64, at: usize, boxes: &[Node], line: &str, words: &str| {
        let mut all = boxes_t(4, |track| {
            track.chunks[3].start += late;
            [1, 3].iter().for_each(|nth| continues(&mut track.chunks[*nth]));
        });
        let place = node::bytes(&all[..at]).len();
        all.splice(at..at, boxes.iter().cloned());
        folder.put("a.mp4", &node::bytes(&all));
        let page = page(&folder, &["a.mp4".to_owned()], 1, &format!("{line} track 0 at {place}"));
        assert_eq!(marks(&page), [words]);
        let (from, to) = stretches(&page, "refused")[0];
        let bars = |class: &str| stretches(&page, class).first().copied();
        ((from + to) / 2.0, bars("judged"), bars("read"), to - from)
    };
    let free = || Node::leaf(b"free", vec![]);
    let header = boxes_t(0, |_| ());

    // Between the fragments, and inside one.
    let (x, judged, read, _) =
        marked(0, 6, &header[..1], "refused 6", "refused between chunk 1 and chunk 2");
    assert_near(judged.unwrap().1, x);
    assert_near(read.unwrap().0, x);
    let (x, judged, read, wide) =
        marked(0, 4, &header[1..], "refused 6", "refused between chunk 0 and chunk 1");
    let (judged, read) = (judged.unwrap(), read.unwrap());
    assert_near(judged.1, x);
    assert_near(read.0, x);
    assert_near(x, judged.0 + (read.1 - judged.0) / 4.0);
    assert!(wide < 10.0, "{wide}");
    // The chunks before it are bad too.
    let mdat = [Node::zeros(b"mdat", 3)];
    let tail = "refused after chunk 3, the last one";
    let (x, judged, read, _) = marked(1, 10, &mdat, "refused 6", tail);
    assert!(judged.is_none() && x > read.unwrap().1, "{x}");
    let (x, judged, ..) = marked(0, 10, &mdat, "refused 6", tail);
    assert!(x > judged.unwrap().1, "{x}");

    // Nothing is read behind a box that is badly framed.
    let open = Node::bare(b"\0\0\0\0free".to_vec());
    let words = "refused after chunk 1; what follows is not read";
    let (x, judged, read, _) = marked(0, 6, &[open], "refused 3", words);
    assert!(x > judged.unwrap().1 && read.is_none(), "{x}");

    let words = "chunk 1 (of fragment 0) is refused: no mdat directly after its moof";
    let (x, judged, read, wide) = marked(0, 5, &[free()], "refused 6", words);
    let (judged, read) = (judged.unwrap(), read.unwrap());
    assert_near(judged.1 - judged.0, wide);
    assert_near(x, read.0 + wide / 2.0);
}

/// An upload that stops after a `moof`, and a `moof` after a `moof`.
#[test]
fn a_chunk_without_its_data() {
    let folder = Folder::new("report_bare");
    let mut boxes = boxes_t(3, |_| ());
    let length = node::bytes(&boxes[..7]).len();
    folder.put("a.mp4", &node::bytes(&boxes[..7]));
    let names = ["a.mp4".to_owned()];
    let stopped = page(&folder, &names, 1, &format!("refused 6 track 0 at {length}"));
    assert_eq!(marks(&stopped), ["chunk 2 is refused: no mdat directly after its moof"]);
    let (judged, read) = (stretches(&stopped, "judged")[0], stretches(&stopped, "read")[0]);
    assert_near(judged.1 - judged.0, 2.0 * (read.1 - read.0));
    assert_near(read.0, judged.1);

    boxes.remove(5);
    folder.put("a.mp4", &node::bytes(&boxes));
    let place = node::bytes(&boxes[..5]).len();
    let lost = page(&folder, &names, 1, &format!("refused 6 track 0 at {place}"));
    assert_eq!(marks(&lost), ["chunk 2 is refused"]);
    let (judged, read) = (stretches(&lost, "judged")[0], stretches(&lost, "read")[0]);
    assert_near(2.0 * (judged.1 - judged.0), read.1 - read.0);
    assert_near(read.0, judged.1);
}

/// The classes of the legend's entries.
fn legend(page: &str) -> Vec<&str> {
    let entries = page.split("figcaption>").nth(1).unwrap().split("<i class=\"").skip(1);
    entries.map(|entry| entry.split('"').next().unwrap()).collect()
}

/// An entry is there exactly when what it explains is drawn.
#[test]
fn the_legend_says_what_is_drawn() {
    let folder = Folder::new("report_legend");
    let drawn = [
        ("judged", "<rect class=\"judged\""),
        ("judged parted", "<path class=\"part\""),
        ("read", "<rect class=\"read\""),
        ("read parted", "<path class=\"part unjudged\""),
        ("refused", "<rect class=\"refused\""),
    ];
    let look = |change: fn(&mut Track)| {
        folder.put("a.mp4", &track_t(4, change));
        let line = run(&folder, &["check", "a.mp4"]).first_line().to_owned();
        let status = i32::from(line.starts_with("refused"));
        let page = page(&folder, &["a.mp4".to_owned()], status, &line);
        let there = drawn.iter().filter(|(_, element)| page.contains(element));
        assert_eq!(legend(&page), there.map(|(class, _)| *class).collect::<Vec<_>>(), "{line}");
        legend(&page).join(", ")
    };
    assert_eq!(look(|_| ()), "judged");
    assert_eq!(look(|track| continues(&mut track.chunks[1])), "judged, judged parted");
    assert_eq!(look(|track| track.chunks[1].start += 1), "judged, read, refused");
    // One judged chunk, and its fragment goes on in the refused one.
    let open = look(|track| {
        track.chunks[1].start += 1;
        continues(&mut track.chunks[1]);
    });
    assert_eq!(open, "judged, judged parted, read, read parted, refused");
    let later = look(|track| {
        track.chunks[1].start += 1;
        continues(&mut track.chunks[3]);
    });
    assert_eq!(later, "judged, read, read parted, refused");
    assert_eq!(look(|track| continues(&mut track.chunks[0])), "read, refused");
    assert_eq!(look(|track| track.trex.flags = 0x1_0000), "read, read parted, refused");
    assert_eq!(look(|track| track.timescale = 0), "refused");
}

/// Where the lines with this class stand, the whole first and the magnified after it.
fn lines(page: &str, class: &str) -> Vec<Vec<f64>> {
    let begin = format!("<path class=\"{class}\" d=\"");
    let paths = page.split(&begin).skip(1);
    let place = |line: &str| line.split(' ').next().unwrap().parse().unwrap();
    paths
        .map(|path| path.split('"').next().unwrap().split('M').skip(1).map(place).collect())
        .collect()
}

/// A bar a track from boundary to boundary; light lines between the chunks of a fragment.
#[test]
fn chunks_within_fragments() {
    let folder = Folder::new("report_chunks");
    let names = folder.unpack("good-low-latency");
    let good = page(&folder, &names, 0, "accepted tracks 3 fragments 2 timescale 90000");
    let bars = stretches(&good, "judged");
    assert_eq!(bars.len(), 3);
    let (left, right) = bars[0];
    let [low, mid, high] = &lines(&good, "part")[..] else { panic!("three tracks with chunks") };
    assert_eq!((low.len(), mid, high.len()), (6, low, 98));
    assert_near(low[3], left + (right - left) * 226_800.0 / 360_000.0);
    let boundaries = lines(&good, "boundary");
    assert_eq!(boundaries.len(), 3);
    for found in boundaries {
        assert_eq!(found.len(), 3);
        assert_near(found[1], (left + right) / 2.0);
    }
    assert!(good.contains(">2 fragments</text>") && good.contains(">100 chunks</text>"));
    assert!(good.contains("</i>in several chunks</span>"));
    assert!(!good.contains("too near to each other"));

    // The refused chunk goes on with its fragment: no boundary stands before it.
    let names = folder.unpack("bad-chunk-plus-one");
    let late = page(&folder, &names, 1, "refused 19 track 0 at 3580");
    assert_eq!(marks(&late), ["chunk 5 (of fragment 1) starts 1 tick late (0.000011 s): a gap"]);
    assert_eq!(lines(&late, "boundary")[0].len(), 2);
    assert_eq!(lines(&late, "part")[0].len(), 4, "three, and the end of what is judged");
    assert_eq!(lines(&late, "part unjudged")[0].len(), 3);
    assert!(!late.contains("too near to each other"), "a gap of a tick is no crowd");

    let names = folder.unpack("bad-low-latency-moved");
    let moved = page(&folder, &names, 1, "refused 28 track 1 at 4260");
    let words = "boundary 1 of track 1 is 46800 ticks late (0.520000 s)";
    assert_eq!(marks(&moved), [words]);
    assert!(moved.contains("<td><code>moof[5]</code></td><td>◀ refused 28</td>"));
}

/// Another number of fragments in the same time: which boundary is missing, or is one too many.
#[test]
fn a_boundary_that_only_one_track_has() {
    let folder = Folder::new("report_missing");
    let names = folder.unpack("bad-low-latency-by-time");
    let missing = page(&folder, &names, 1, "refused 27 track 1 at 4721");
    let words = "track 1 has no boundary at tick 180000 (2.000000 s), as track 0 has";
    assert_eq!(marks(&missing), [words]);
    let turned = [names[1].clone(), names[0].clone()];
    let length = fs::metadata(folder.path(&names[0])).unwrap().len();
    let further = page(&folder, &turned, 1, &format!("refused 27 track 1 at {length}"));
    let words = "track 1 has a boundary at tick 180000 (2.000000 s) that track 0 has not";
    assert_eq!(marks(&further), [words]);
}

/// Where nothing can be drawn, the row says so.
#[test]
fn nothing_to_draw() {
    let folder = Folder::new("report_nothing");
    folder.put("a.mp4", b"");
    let empty = page(&folder, &["a.mp4".to_owned()], 1, "refused 6 track 0 at 0");
    assert!(
        empty.contains(">no fragment to draw</text>") && empty.contains("The track has no bytes.")
    );
    folder.put("a.mp4", b"\0\0\0\x08ftyp\0<&");
    let stray = page(&folder, &["a.mp4".to_owned()], 1, "refused 2 track 0 at 8");
    assert!(stray.contains("<td>no box can be read here</td><td>◀ refused 2</td>"));
    assert!(stray.contains("<td>·&lt;&amp;</td>"), "the bytes are escaped");
}

#[test]
fn names_are_escaped() {
    let folder = Folder::new("report_names");
    let bytes = track_t(2, |_| ());
    let names = ["a<b>&\".mp4".to_owned(), "</title><script>'x'.mp4".replace('/', "\u{2215}")];
    names.iter().for_each(|name| folder.put(name, &bytes));
    let page = page(&folder, &names, 0, "accepted tracks 2 fragments 2 timescale 90000");
    assert!(page.contains("a&lt;b&gt;&amp;&quot;.mp4"));
    assert!(!page.contains("a<b>") && !page.contains("<script") && !page.contains("&\".mp4"));
    for outside in ["http:", "https:", "src=", "@import", "<link rel=\"stylesheet"] {
        assert!(!page.contains(outside), "{outside}");
    }
}

#[test]
fn hundreds_of_fragments_and_sixteen_tracks() {
    let folder = Folder::new("report_many");
    folder.put("a.mp4", &track_t(500, |_| ()));
    let names = vec!["a.mp4".to_owned(); 16];
    let page = page(&folder, &names, 0, "accepted tracks 16 fragments 500 timescale 90000");
    assert!(page.contains("441 more are left out"), "60 of 501 are listed");
    assert!(page.contains("too near to each other"), "lines are thinned out");
    assert!(page.len() < 150_000, "{} bytes", page.len());
}

/// Unjudged chunks may be too many for a line each as well.
#[test]
fn hundreds_of_unjudged_chunks() {
    let folder = Folder::new("report_many_unjudged");
    folder.put("a.mp4", &track_t(500, |track| continues(&mut track.chunks[0])));
    let line = run(&folder, &["check", "a.mp4"]).first_line().to_owned();
    assert!(line.starts_with("refused 21 "), "{line}");
    let page = page(&folder, &["a.mp4".to_owned()], 1, &line);
    assert!(page.contains("too near to each other"), "lines are thinned out");
}

#[test]
fn to_standard_output() {
    let folder = Folder::new("report_stdout");
    let bytes = track_t(2, |_| ());
    let ran = run_with(&folder, &["report", "-", "-o", "-"], &bytes);
    assert_eq!((ran.status, ran.err.as_str(), ran.first_line()), (0, "", "<!DOCTYPE html>"));
    assert!(ran.out.ends_with("</html>\n"));
    assert_eq!(folder.names(), [""; 0]);
    let full = fs::OpenOptions::new().write(true).open("/dev/full").unwrap();
    folder.put("a.mp4", &bytes);
    let ran =
        Ran::of(command(&folder, &["report", "a.mp4", "-o", "-"]).stdout(full).output().unwrap());
    ran.assert_not_judged("standard output: No space");
}

/// Status 2 leaves the folder as it was, an older page included.
#[test]
fn what_is_not_written() {
    let folder = Folder::new("report_not_written");
    folder.put("a.mp4", &track_t(2, |_| ()));
    folder.put("page.html", b"older");
    run(&folder, &["report", "a.mp4"]).assert_not_judged("--output");
    run(&folder, &["report", "-o", "page.html"]).assert_not_judged("FILE");
    let not = |args: &[&str], words: &str| {
        run(&folder, &[&["report", "-o"], args].concat()).assert_not_judged(words);
        assert_eq!(folder.names(), ["a.mp4", "page.html"]);
        assert_eq!(fs::read(folder.path("page.html")).unwrap(), b"older");
    };
    not(&["page.html", "a.mp4", "nowhere"], "nowhere: No such file");
    not(&[&["page.html"], &["a.mp4"; 17][..]].concat(), "17 files");
    not(&["page.html", "."], ".: is a directory");
    not(&["nowhere/page.html", "a.mp4"], "nowhere/page.html: No such file");
    not(&["/dev/full", "a.mp4"], "/dev/full: No space");
    not(&["a.mp4", "a.mp4"], "a.mp4: is one of the tracks");
    // A page is replaced whole.
    assert_eq!(run(&folder, &["report", "a.mp4", "-o", "page.html"]).status, 0);
    assert!(fs::read(folder.path("page.html")).unwrap().starts_with(b"<!DOCTYPE html>"));
    assert_eq!(folder.names(), ["a.mp4", "page.html"]);
}
