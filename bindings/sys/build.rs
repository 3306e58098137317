//! Finds or makes the static library `lubiksan` and says where it stands:
//!
//! 1. in the folder that `LUBIKSAN_LIB_DIR` names, from the folder above this one on where it is no full path;
//! 2. in `../../lib`, as in a delivery;
//! 3. in `../../target/staticlib` of the repository, made anew by `.ci/archive` where it is missing or was made of other
//!    sources.

use std::env;
use std::error::Error;
use std::fs;
use std::path::{Path, PathBuf};
use std::process::Command;

const ARCHIVE: &str = "liblubiksan.a";

fn main() -> Result<(), Box<dyn Error>> {
    println!("cargo:rerun-if-changed=build.rs");
    println!("cargo:rerun-if-env-changed=LUBIKSAN_LIB_DIR");
    let manifest = env::var_os("CARGO_MANIFEST_DIR").ok_or("cargo sets CARGO_MANIFEST_DIR")?;
    let folder = folder_of_archive(Path::new(&manifest))?;
    let archive = folder.join(ARCHIVE);
    if !archive.is_file() {
        return Err(format!("there is no {}", archive.display()).into());
    }
    println!("cargo:rerun-if-changed={}", archive.display());
    println!("cargo:rustc-link-search=native={}", folder.display());
    println!("cargo:rustc-link-lib=static=lubiksan");
    // For the tests of this crate, which link C programs.
    println!("cargo:rustc-env=LUBIKSAN_ARCHIVE={}", archive.display());
    Ok(())
}

/// The folder with the archive, made where that is to be done here.
fn folder_of_archive(manifest: &Path) -> Result<PathBuf, Box<dyn Error>> {
    let above = manifest.parent().ok_or("the crate stands in no folder")?;
    if let Some(named) = env::var_os("LUBIKSAN_LIB_DIR") {
        return Ok(above.join(named));
    }
    let root = above.parent().ok_or("the crate stands in no folder")?;
    let delivered = root.join("lib");
    if delivered.join(ARCHIVE).is_file() {
        return Ok(delivered);
    }
    made_in(root)
}

/// The archive of the repository `root`, made by its script where it is missing or was made of other sources.
fn made_in(root: &Path) -> Result<PathBuf, Box<dyn Error>> {
    let script = root.join(".ci").join("archive");
    if !script.is_file() {
        return Err(
            "no static library is here: set LUBIKSAN_LIB_DIR to the folder with liblubiksan.a"
                .into(),
        );
    }
    for source in sources(root)? {
        println!("cargo:rerun-if-changed={}", source.display());
    }
    let output = Command::new(&script)
        .current_dir(root)
        .output()
        .map_err(|error| format!("{} can't be run: {error}", script.display()))?;
    if !output.status.success() {
        let said = String::from_utf8_lossy(&output.stderr);
        return Err(format!(
            ".ci/archive failed; install the toolchain or set LUBIKSAN_LIB_DIR: {said}"
        )
        .into());
    }
    Ok(root.join("target").join("staticlib"))
}

/// What the archive is made of, without what the toolchain leaves beside it.
fn sources(root: &Path) -> Result<Vec<PathBuf>, Box<dyn Error>> {
    let mut found = vec![root.join("crates.txt")];
    for entry in fs::read_dir(root.join("crates"))? {
        let folder = entry?.path();
        let parts = ["src", "specs", "proofs"].map(|part| folder.join(part));
        found.extend(parts.into_iter().filter(|part| part.is_dir()));
    }
    Ok(found)
}
