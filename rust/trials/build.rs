//! Says by `cfg(linked)` whether the wrapper has an archive to call, and by `cfg(before)` whether
//! there is another to compare it with: `tools/versus` puts libbefore.a into a directory and names
//! that in `$FLANGEMINT_BEFORE_DIR`.

use std::env;
use std::path::PathBuf;

const BEFORE: &str = "libbefore.a";

fn main() {
    println!("cargo::rustc-check-cfg=cfg(linked)");
    println!("cargo::rustc-check-cfg=cfg(before)");
    println!("cargo::rerun-if-changed=build.rs");
    println!("cargo::rerun-if-env-changed=FLANGEMINT_BEFORE_DIR");
    // Without an archive there is nothing to compare.
    if env::var_os("DEP_FLANGEMINT_LINKED").is_none() {
        return;
    }
    println!("cargo::rustc-cfg=linked");
    if let Some(dir) = env::var_os("FLANGEMINT_BEFORE_DIR").map(PathBuf::from) {
        let archive = dir.join(BEFORE);
        println!("cargo::rerun-if-changed={}", archive.display());
        if !archive.is_file() {
            println!("cargo::error={BEFORE} is not in {}", dir.display());
            return;
        }
        println!("cargo::rustc-link-search=native={}", dir.display());
        println!("cargo::rustc-link-lib=static=before");
        println!("cargo::rustc-cfg=before");
    }
}
