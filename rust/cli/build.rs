//! Stops early where there is no archive to call, and hands the library's and the kit's version to `--version`.

use std::{env, fs};

/// The workspace that the wrapper belongs to: its version is the library's.
const LIBRARY: &str = "../Cargo.toml";

fn main() {
    println!("cargo::rerun-if-changed=build.rs");
    println!("cargo::rerun-if-changed={LIBRARY}");
    println!("cargo::rerun-if-env-changed=FLANGEMINT_KIT");
    if env::var_os("DEP_FLANGEMINT_LINKED").is_none() {
        println!("cargo::error=the command needs libflangemint.a: `make archive` makes it");
    }
    let manifest = fs::read_to_string(LIBRARY).unwrap_or_default();
    let version = manifest.lines().find_map(|line| line.strip_prefix("version = "));
    let version = version.map_or("unknown", |quoted| quoted.trim_matches('"'));
    println!("cargo::rustc-env=FLANGEMINT_LIBRARY={version}");
    // What `rt version` said when the archive was made; whoever builds names it, as cargo can't know it.
    let kit = env::var("FLANGEMINT_KIT").unwrap_or_default();
    let kit = kit.lines().next().map(str::trim).filter(|line| !line.is_empty());
    println!("cargo::rustc-env=FLANGEMINT_KIT={}", kit.unwrap_or("unknown kit"));
}
