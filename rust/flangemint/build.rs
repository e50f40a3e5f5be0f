//! Links libflangemint.a, if there is one for the target, and says so by `cfg(linked)`.
//!
//! In `$FLANGEMINT_LIB_DIR` there must be one. Without that variable it is the
//! repository's own for this machine, in `target/native`.

use std::env;
use std::path::PathBuf;

const ARCHIVE: &str = "libflangemint.a";

fn main() {
    println!("cargo::rustc-check-cfg=cfg(linked)");
    println!("cargo::rerun-if-changed=build.rs");
    println!("cargo::rerun-if-env-changed=FLANGEMINT_LIB_DIR");
    let manifest = PathBuf::from(env::var_os("CARGO_MANIFEST_DIR").expect("cargo sets it"));
    if let Some(given) = env::var_os("FLANGEMINT_LIB_DIR") {
        // A relative directory counts from this crate.
        let dir = manifest.join(given);
        if !link(dir.clone()) {
            println!("cargo::error={ARCHIVE} is not in {}", dir.display());
        }
        return;
    }
    let host = env::var("HOST").expect("cargo sets it");
    let machine = env::var("CARGO_CFG_TARGET_ARCH").expect("cargo sets it");
    if host.split('-').next() != Some(&machine) {
        println!(
            "cargo::warning=no archive is linked: target/native is for {host}, this is {machine}"
        );
    } else if !link(manifest.join("../../target/native")) {
        println!(
            "cargo::warning=no archive is linked: target/native has no {ARCHIVE}; \
             `make archive` makes it"
        );
    }
}

/// Links the archive in this directory; `false` if there is none.
fn link(dir: PathBuf) -> bool {
    let archive = dir.join(ARCHIVE);
    println!("cargo::rerun-if-changed={}", archive.display());
    if !archive.is_file() {
        return false;
    }
    println!("cargo::rustc-link-search=native={}", dir.display());
    println!("cargo::rustc-link-lib=static=flangemint");
    println!("cargo::rustc-cfg=linked");
    println!("cargo::metadata=linked=yes");
    true
}
