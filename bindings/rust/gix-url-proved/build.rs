//! Links `libgix_url.a`, which `scripts/bindings` builds. It is searched in the folder that `GIX_URL_LIB` names, or
//! else in `out/bindings` of the repository and beside the manifest.

use std::path::{Path, PathBuf};
use std::process::exit;

/// The folders that may have the library.
fn folders() -> Vec<PathBuf> {
    if let Some(named) = std::env::var_os("GIX_URL_LIB") {
        return vec![named.into()];
    }
    let here = std::env::var_os("CARGO_MANIFEST_DIR").expect("cargo names the folder of the crate");
    vec![Path::new(&here).join("../../../out/bindings"), here.into()]
}

fn main() {
    println!("cargo:rerun-if-env-changed=GIX_URL_LIB\ncargo:rerun-if-env-changed=DOCS_RS");
    // Documentation is built without the library.
    if std::env::var_os("DOCS_RS").is_some() {
        return;
    }
    let folders = folders();
    for folder in &folders {
        println!("cargo:rerun-if-changed={}", folder.join("libgix_url.a").display());
    }
    let folder = folders.iter().find(|folder| folder.join("libgix_url.a").is_file()).unwrap_or_else(|| {
        eprintln!(
            "libgix_url.a is not in {}: build it with scripts/bindings, or name its folder in GIX_URL_LIB",
            folders[0].display()
        );
        exit(1)
    });
    println!("cargo:rustc-link-search=native={}", folder.display());
    println!("cargo:rustc-link-lib=static=gix_url");
}
