//! Compares this crate with `gix-url` 0.40.1 by the program `bindings/rust/compare` of the repository:
//! `cargo test --features compare`. If `gix-url` isn't installed, that is printed, and nothing is compared.
//!
//! The program is built in the folder `GIX_URL_COMPARE_IN`, or in that of temporary files, since inside of the repository
//! other crates replace those of a registry. A `.cargo/config.toml` of that folder may name a source.
#![cfg(feature = "compare")]

use std::env;
use std::path::PathBuf;
use std::process::{Command, Output};

/// How many randomly changed texts are compared.
const CHANGED: &str = "200000";

fn cargo(words: &[&str]) -> Output {
    let folder = env::var_os("GIX_URL_COMPARE_IN").map_or_else(env::temp_dir, PathBuf::from);
    let mut command = Command::new(env!("CARGO"));
    command.args(words).current_dir(folder).output().expect("cargo can be called")
}

#[test]
fn answers_are_those_of_gix_url() {
    let repository = concat!(env!("CARGO_MANIFEST_DIR"), "/../../..");
    let manifest = format!("{repository}/bindings/rust/compare/Cargo.toml");
    let found = cargo(&["tree", "--offline", "--manifest-path", &manifest]);
    if !found.status.success() {
        eprintln!("skipped: gix-url 0.40.1 is not installed\n{}", String::from_utf8_lossy(&found.stderr));
        return;
    }
    let (short, remotes) =
        (format!("{repository}/crates/locations/stdin"), format!("{repository}/crates/url_bench/remotes.txt"));
    let program = ["run", "--offline", "--quiet", "--release", "--manifest-path", &manifest, "--"];
    let ran = cargo(&[&program[..], &[CHANGED, &short, &remotes]].concat());
    let said = String::from_utf8_lossy(&ran.stdout);
    assert!(ran.status.success(), "{said}{}", String::from_utf8_lossy(&ran.stderr));
    println!("{said}");
}
