//! `flangemint explain`, help and version.

use crate::folder::Folder;
use crate::run::run;

#[test]
fn every_number() {
    let folder = Folder::new("every_number");
    for number in 0..=29 {
        let ran = run(&folder, &["explain", &number.to_string()]);
        assert_eq!((ran.status, ran.err.as_str()), (0, ""));
        assert!(ran.first_line().starts_with(&format!("{number}. ")), "{}", ran.out);
        assert!(
            ran.out.contains("\n  Means: ") && ran.out.contains("\n  What to do: "),
            "{}",
            ran.out
        );
    }
}

#[test]
fn other_numbers() {
    let folder = Folder::new("other_numbers");
    for wrong in ["30", "-1", "nineteen", "", "99999999999999999999"] {
        run(&folder, &["explain", wrong]).assert_not_judged("");
    }
    run(&folder, &["explain", "30"]).assert_not_judged("30 is not in 0..=29");
}

#[test]
fn help_and_version() {
    let folder = Folder::new("help_and_version");
    for command in ["check", "stream", "boxes", "report", "explain", "pack", "batch"] {
        let ran = run(&folder, &[command, "--help"]);
        assert_eq!((ran.status, ran.err.as_str()), (0, ""));
        let example = format!("\n  flangemint {command} ");
        assert!(ran.out.contains("Examples:") && ran.out.contains(&example), "{}", ran.out);
        assert!(run(&folder, &["--help"]).out.contains(&example), "{command}");
    }
    let ran = run(&folder, &["--version"]);
    let lines: Vec<&str> = ran.out.lines().collect();
    assert_eq!(lines[..2], [concat!("flangemint ", env!("CARGO_PKG_VERSION")), "library 0.2.0"]);
    assert!(lines[2].starts_with("kit ") && lines.len() == 3, "{}", ran.out);
}
