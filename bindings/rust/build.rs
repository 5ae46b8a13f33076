//! Finds libmoxkeldi.a: the file that MOXKELDI_LIB names, or else what `rt lib` builds in crates/moxkeldi.

use std::env;
use std::fs;
use std::path::{Path, PathBuf};
use std::process::Command;

fn main() {
    println!("cargo:rerun-if-changed=build.rs");
    println!("cargo:rerun-if-env-changed=MOXKELDI_LIB");
    let archive = match env::var_os("MOXKELDI_LIB").filter(|path| !path.is_empty()) {
        Some(path) => named(path.into()),
        None => built_here(),
    };

    // The linker looks for a file of this name, whatever the archive is called.
    let out = PathBuf::from(env::var_os("OUT_DIR").expect("cargo sets OUT_DIR"));
    let copy = out.join("libmoxkeldi.a");
    if let Err(error) = std::fs::copy(&archive, &copy) {
        panic!(
            "cannot read the archive {}: {error} (MOXKELDI_LIB names it; give a whole path)",
            archive.display()
        );
    }
    println!("cargo:rustc-link-search=native={}", out.display());
    println!("cargo:rustc-link-lib=static=moxkeldi");
}

fn named(archive: PathBuf) -> PathBuf {
    println!("cargo:rerun-if-changed={}", archive.display());
    archive
}

/// Builds the archive from the proved crates. Nothing is proved again that has not changed.
///
/// Only the sources are watched: cargo runs this script again where a watched file is younger than the beginning of its last run, as each
/// file is that the run itself has written, the archive and its copy among them.
fn built_here() -> PathBuf {
    let manifest = env::var_os("CARGO_MANIFEST_DIR").expect("cargo sets CARGO_MANIFEST_DIR");
    let root = Path::new(&manifest).join("../..");
    println!(
        "cargo:rerun-if-changed={}",
        root.join("crates.txt").display()
    );
    for folder in sources(&root.join("crates")) {
        println!("cargo:rerun-if-changed={}", folder.display());
    }
    match Command::new("rt")
        .arg("lib")
        .current_dir(root.join("crates/moxkeldi"))
        .status()
    {
        Ok(status) if status.success() => root.join("crates/moxkeldi/out/libmoxkeldi.a"),
        Ok(status) => panic!("`rt lib` in crates/moxkeldi ended with {status}"),
        Err(error) => panic!(
            "cannot run `rt lib`: {error}; set MOXKELDI_LIB to a libmoxkeldi.a"
        ),
    }
}

/// The folders of the crates that hold what rt reads. What it writes lies beside them.
fn sources(crates: &Path) -> Vec<PathBuf> {
    let entries = fs::read_dir(crates)
        .unwrap_or_else(|error| panic!("cannot read {}: {error}", crates.display()));
    let mut folders = Vec::new();
    for entry in entries.flatten() {
        for part in ["src", "specs", "proofs"] {
            let folder = entry.path().join(part);
            if folder.is_dir() {
                folders.push(folder);
            }
        }
    }
    folders
}
