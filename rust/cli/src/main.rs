//! `flangemint`: the proved intake checks as a command, and their verdicts explained.
//!
//! `judge` is the verdict path and all of it. `facts` has what is known of a judged set as plain
//! data; `reason`, `place` and `found` explain a refusal and never change it; `words` and `json`
//! say it.

mod args;
mod batch;
mod boxes;
mod bundle;
mod check;
mod chunks;
mod explain;
mod facts;
mod failure;
mod found;
mod input;
mod json;
mod judge;
mod layout;
mod output;
mod pack;
mod place;
mod progress;
mod reason;
mod refusals;
mod report;
mod samples;
mod status;
mod stream;
mod time;
mod view;
mod walk;
mod words;

use args::{Args, Command};
use clap::error::ErrorKind;
use clap::Parser;
use failure::Failure;
use status::Status;
use std::process::ExitCode;

fn main() -> ExitCode {
    let done = match Args::try_parse() {
        Ok(args) => run(&args.command),
        Err(error) => usage(&error),
    };
    let status = done.unwrap_or_else(|failure| {
        output::complain(&failure.to_string());
        Status::NotJudged
    });
    status.into()
}

fn run(command: &Command) -> Result<Status, Failure> {
    match command {
        Command::Check(args) => check::run(args),
        Command::Boxes(args) => boxes::run(args),
        Command::Report(args) => report::run(args),
        Command::Stream(args) => stream::run(args),
        Command::Explain(args) => explain::run(args),
        Command::Pack(args) => pack::run(args),
        Command::Batch(args) => batch::run(args),
    }
}

/// Help and version are answers; a wrong argument is not, and no argument gets the help as a reproach.
fn usage(error: &clap::Error) -> Result<Status, Failure> {
    let text = error.to_string();
    if error.kind() == ErrorKind::DisplayHelpOnMissingArgumentOrSubcommand {
        return Err(Failure::new(format!("a command is missing\n{}", text.trim_end())));
    }
    if error.use_stderr() {
        return Err(Failure::new(text.trim_start_matches("error: ").trim_end()));
    }
    output::answer(text.as_bytes())?;
    Ok(Status::Accepted)
}
