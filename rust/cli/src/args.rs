//! What the command is called with.

use clap::{Parser, Subcommand};
use std::ffi::OsString;

pub const VERSION: &str = concat!(
    env!("CARGO_PKG_VERSION"),
    "\nlibrary ",
    env!("FLANGEMINT_LIBRARY"),
    "\nkit ",
    env!("FLANGEMINT_KIT")
);

const STATUS: &str = "\
Status: 0 accepted, 1 refused, 2 not judged (a file that can't be read, output that can't be
written, wrong arguments). Standard output has the answer alone, standard error the rest.";

const EXAMPLES: &str = "\
Examples:
  flangemint check low.mp4 mid.mp4 high.mp4     does this ladder switch?
  flangemint check --each *.mp4                 and what is wrong with each file?
  flangemint stream < video.mp4                 one track while it arrives, in little memory
  flangemint boxes low.mp4                      the boxes, the refused one marked
  flangemint report *.mp4 -o page.html          a page that shows where the ladder breaks
  flangemint explain 19                         what a number means and what to do
  flangemint pack low.mp4 high.mp4 -o set.bundle
  flangemint batch sets.txt > verdicts.jsonl    a whole archive, a set a line

Status: 0 accepted, 1 refused, 2 not judged.
`flangemint COMMAND --help` has more.";

const CHECK: &str = "\
Examples:
  flangemint check video.mp4                    one track by itself
  flangemint check low.mp4 mid.mp4 high.mp4     a switching set: 2 to 16 tracks
  cat init.mp4 $(ls -v seg*.m4s) | flangemint check -
                                                header and segments, in the order of their numbers
  flangemint check --json low.mp4 high.mp4 | jq .refusal.box.path
  flangemint check --bundle set.bundle          what `flangemint pack` wrote

The first line is that of the program intake: `accepted tracks N fragments F timescale S`, or
`refused N track T at P`. Then comes why.
";

const STREAM: &str = "\
Examples:
  flangemint stream < video.mp4
  cat init.mp4 $(ls -v seg*.m4s) | flangemint stream
                                                header and segments, in the order of their numbers
  tee video.mp4 < uplink | flangemint stream --json

The first line is that of `check -`, and then come the first and the last boundary. Nothing of the
data is kept, however long the track is, so that no box is named where it is refused. A ftyp, moov
or moof of more than 32,768 bytes is refused here alone (29): `check -` has no such limit.
";

const BOXES: &str = "\
Examples:
  flangemint boxes video.mp4
  flangemint boxes --json video.mp4 | jq '.boxes[] | select(.type == \"moof\") | .offset'

A line a box: offset, size, type, indented by depth. The first line is the verdict.
";

const REPORT: &str = "\
Examples:
  flangemint report low.mp4 mid.mp4 high.mp4 -o page.html
  flangemint report video.mp4 -o - > page.html

One page with all that it needs: the verdict, a picture of every track's fragments and chunks with
the place where they part, the boxes and bytes around it. It is there whole, or (status 2) not at all.
";

const EXPLAIN: &str = "\
Examples:
  flangemint explain 19
  flangemint explain 0
";

const PACK: &str = "\
Examples:
  flangemint pack low.mp4 mid.mp4 high.mp4 -o set.bundle
  flangemint pack low.mp4 high.mp4 -o - | flangemint check --bundle -

The bundle is written beside its place and then renamed: it is there whole, or not at all.
Nothing is judged. Status: 0 written, 2 not written.";

const BATCH: &str = "\
Examples:
  flangemint batch sets.txt > verdicts.jsonl
  find . -name '*.mp4' | flangemint batch -     every track by itself
  flangemint batch sets.txt | jq -c 'select(.verdict != \"accepted\") | .files'

A line of the list is a set: 1 to 16 file names separated by tabs, counted from the current
folder. Empty lines and lines that begin with # are passed over. Each set gives one JSON line, in
the list's order. Status: 2 if a set was not judged, else 1 if one is refused, else 0.";

/// Checks CMAF tracks and switching sets at intake, by a library that is proved correct
#[derive(Parser)]
#[command(name = "flangemint", version = VERSION, after_help = EXAMPLES)]
pub struct Args {
    #[command(subcommand)]
    pub command: Command,
}

#[derive(Subcommand)]
pub enum Command {
    Check(Check),
    Stream(Stream),
    Boxes(Boxes),
    Report(Report),
    Explain(Explain),
    Pack(Pack),
    Batch(Batch),
}

/// Judge a track, or a set of 2 to 16 tracks, and say why
#[derive(clap::Args)]
#[command(after_help = format!("{CHECK}{STATUS}"))]
pub struct Check {
    /// Track files; - is standard input
    #[arg(required = true, value_name = "FILE")]
    pub files: Vec<OsString>,
    /// Judge every file by itself too, and name the first fault of each
    #[arg(long)]
    pub each: bool,
    /// Show all boundaries, not ten at most
    #[arg(long)]
    pub boundaries: bool,
    /// The file is a bundle, as `pack` writes it
    #[arg(long)]
    pub bundle: bool,
    /// One JSON object (docs/JSON.md)
    #[arg(long)]
    pub json: bool,
}

/// Judge one track from standard input while it arrives
#[derive(clap::Args)]
#[command(after_help = format!("{STREAM}{STATUS}"))]
pub struct Stream {
    /// None but -: standard input is read
    #[arg(value_name = "FILE", hide = true)]
    pub files: Vec<OsString>,
    /// One JSON object (docs/JSON.md)
    #[arg(long)]
    pub json: bool,
}

/// List the boxes of a track, with the refused one marked
#[derive(clap::Args)]
#[command(after_help = format!("{BOXES}{STATUS}"))]
pub struct Boxes {
    /// Track file; - is standard input
    #[arg(value_name = "FILE")]
    pub file: OsString,
    /// One JSON object (docs/JSON.md)
    #[arg(long)]
    pub json: bool,
}

/// Judge a track or a set as `check` does, and write a page that shows why
#[derive(clap::Args)]
#[command(after_help = format!("{REPORT}{STATUS}"))]
pub struct Report {
    /// Track files; - is standard input
    #[arg(required = true, value_name = "FILE")]
    pub files: Vec<OsString>,
    /// Where the page goes; - is standard output
    #[arg(short, long, value_name = "PAGE")]
    pub output: OsString,
}

/// Explain a verdict number: what it means, what causes it, what to do
#[derive(clap::Args)]
#[command(after_help = EXPLAIN)]
pub struct Explain {
    /// 0 to 29
    #[arg(value_name = "NUMBER", value_parser = clap::value_parser!(u64).range(0..=crate::refusals::LAST))]
    pub number: u64,
}

/// Put 1 to 16 track files into one bundle
#[derive(clap::Args)]
#[command(after_help = PACK)]
pub struct Pack {
    /// Track files; - is standard input
    #[arg(required = true, value_name = "FILE")]
    pub files: Vec<OsString>,
    /// Where the bundle goes; - is standard output
    #[arg(short, long, value_name = "BUNDLE")]
    pub output: OsString,
}

/// Judge every set of a list, on all cores
#[derive(clap::Args)]
#[command(after_help = BATCH)]
pub struct Batch {
    /// The list; - is standard input
    #[arg(value_name = "LIST")]
    pub list: OsString,
    /// Sets judged at once, each of them in memory; without it as many as there are cores
    #[arg(short, long, value_name = "N", value_parser = clap::value_parser!(u16).range(1..))]
    pub jobs: Option<u16>,
    /// Boundaries of accepted sets too, and of single tracks the starts of their chunks
    #[arg(long)]
    pub boundaries: bool,
}
