//! `flangemint pack`: track files as one bundle, and how an output is written: whole or not at all.

use crate::args::Pack;
use crate::bundle::Bundle;
use crate::check::open_set;
use crate::failure::Failure;
use crate::input::{shown, Show};
use crate::judge::MOST_BYTES;
use crate::output::{self, Reader};
use crate::status::Status;
use std::ffi::{OsStr, OsString};
use std::fs::{self, File, OpenOptions};
use std::io::{self, Write};
use std::os::unix::fs::MetadataExt;
use std::path::{Path, PathBuf};
use std::process;

pub fn run(args: &Pack) -> Result<Status, Failure> {
    let files = open_set(&args.files, Show::Progress)?;
    let bundle = Bundle::read(files, None)?;
    if bundle.bytes().len() > MOST_BYTES {
        return Err(Failure::new(format!("the bundle would be over {MOST_BYTES} bytes")));
    }
    match put(&args.output, &args.files, bundle.bytes())? {
        Reader::There => Ok(Status::Accepted),
        // A reader that left has half a bundle.
        Reader::Gone => Err(Failure::new("standard output was closed before the bundle's end")),
    }
}

/// Writes what was made of files, `-` to standard output; says whether somebody got it.
pub fn put(output: &OsStr, files: &[OsString], bytes: &[u8]) -> Result<Reader, Failure> {
    if output == "-" {
        return output::answer(bytes);
    }
    refuse_input(output, files)?;
    let written = write(Path::new(output), bytes);
    written.map(|()| Reader::There).map_err(|error| Failure::about(&shown(output), &error))
}

/// A track must not be lost to what is made of it.
fn refuse_input(output: &OsStr, files: &[OsString]) -> Result<(), Failure> {
    let Ok(target) = fs::metadata(output) else { return Ok(()) };
    let same = |file: &&OsString| {
        fs::metadata(file)
            .is_ok_and(|facts| (facts.dev(), facts.ino()) == (target.dev(), target.ino()))
    };
    match files.iter().find(same) {
        Some(file) => {
            Err(Failure::new(format!("{}: is one of the tracks and stays as it is", shown(file))))
        }
        None => Ok(()),
    }
}

/// Writes beside the target and renames, so that the target is never half-written. What is no
/// ordinary file, such as a device or a named pipe, is written in place.
fn write(target: &Path, bytes: &[u8]) -> io::Result<()> {
    // A link is followed, and what it leads to replaced.
    let target = fs::canonicalize(target).unwrap_or_else(|_| target.to_owned());
    if fs::metadata(&target).is_ok_and(|facts| !facts.is_file()) {
        return OpenOptions::new().write(true).open(&target)?.write_all(bytes);
    }
    let beside = beside(&target)?;
    let written = create(&beside, bytes).and_then(|()| fs::rename(&beside, &target));
    if written.is_err() {
        let _ = fs::remove_file(&beside);
    }
    written
}

/// A name for the unfinished output, in the target's folder.
fn beside(target: &Path) -> io::Result<PathBuf> {
    let name = target.file_name().ok_or(io::ErrorKind::InvalidInput)?;
    let mut hidden = OsString::from(".");
    hidden.push(name);
    hidden.push(format!(".{}", process::id()));
    Ok(target.with_file_name(hidden))
}

fn create(path: &Path, bytes: &[u8]) -> io::Result<()> {
    let mut file = File::options().write(true).create_new(true).open(path)?;
    file.write_all(bytes)?;
    // A full disk may show only now.
    file.sync_all()
}
