//! `trials dump`: an example's bytes on standard output.

use maker::examples::examples;
use std::io::Write;

/// The example of this name, with or without its job; without a name, all names.
pub fn dump(names: &[String]) -> Result<(), String> {
    let examples = examples();
    let Some(name) = names.first() else {
        examples.iter().for_each(|example| println!("{}", example.name));
        return Ok(());
    };
    let is_named =
        |full: &str| full == name || full.split_once(' ').is_some_and(|(_, n)| n == name);
    let found = examples.iter().find(|example| is_named(&example.name));
    let example = found.ok_or(format!("no example is called {name}"))?;
    std::io::stdout().write_all(&example.case.bytes).map_err(|error| error.to_string())
}
