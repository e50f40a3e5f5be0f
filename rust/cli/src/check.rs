//! `flangemint check`: the verdict, and why.

use crate::args::Check;
use crate::bundle::{Bundle, MOST_TRACKS};
use crate::facts::{Set, Track};
use crate::failure::Failure;
use crate::input::{open, open_all, Opened, Show};
use crate::reason::Reason;
use crate::status::Status;
use crate::{json, output, words};
use serde_json::{Map, Value};
use std::ffi::OsString;

pub fn run(args: &Check) -> Result<Status, Failure> {
    let mut each = Each::default();
    let set = if args.bundle {
        read_bundle(&args.files, args.each.then_some(&mut each))?
    } else {
        read_files(open_set(&args.files, Show::Progress)?, args.each.then_some(&mut each))?
    };
    let reason = Reason::of_set(&set);
    let text = if args.json {
        let mut object = json::about(&set, reason.as_ref(), true);
        if args.each {
            object.insert("each".into(), each.objects.into_iter().map(Value::Object).collect());
        }
        json::line(object)
    } else {
        words::about(&set, reason.as_ref(), &each.lines, args.boundaries)
    };
    output::answer(text.as_bytes())?;
    Ok(Status::of(&set.judged.verdict))
}

/// Opens the files of a set, 1 to 16.
pub fn open_set(names: &[OsString], show: Show) -> Result<Vec<Opened>, Failure> {
    if names.len() > MOST_TRACKS {
        return Err(Failure::new(format!(
            "{} files: a set has at most {MOST_TRACKS} tracks",
            names.len()
        )));
    }
    open_all(names, show)
}

/// What is said about every file by itself.
#[derive(Default)]
pub struct Each {
    lines: Vec<String>,
    objects: Vec<Map<String, Value>>,
}

impl Each {
    fn judge(&mut self, name: &str, bytes: &[u8]) {
        let track = Track::of(name, bytes);
        let reason = Reason::of_track(&track);
        self.lines.push(words::alone(name, &track.alone.verdict, reason.as_ref()));
        self.objects.push(json::alone(&track, reason.as_ref()));
    }
}

/// Reads and judges files. They are judged by themselves while they are read, as a set that is
/// too long is never in memory whole.
pub fn read_files(files: Vec<Opened>, each: Option<&mut Each>) -> Result<Set, Failure> {
    let names: Vec<String> = files.iter().map(|file| file.name.clone()).collect();
    let bundle = match each {
        None => Bundle::read(files, None)?,
        Some(each) => Bundle::read(files, Some(&mut |nth, bytes| each.judge(&names[nth], bytes)))?,
    };
    Ok(Set::of_files(names, bundle))
}

fn read_bundle(files: &[OsString], each: Option<&mut Each>) -> Result<Set, Failure> {
    let [file] = files else {
        return Err(Failure::new(format!("{} files: --bundle takes one", files.len())));
    };
    let file = open(file, Show::Progress)?;
    let name = file.name.clone();
    let set = Set::of_bundle(name, Bundle::read_packed(file)?);
    if let Some(each) = each {
        set.names.iter().zip(set.bundle.tracks()).for_each(|(name, bytes)| each.judge(name, bytes));
    }
    Ok(set)
}
