//! Links libpavuneshil.a: from the folder that PAVUNESHIL_LIB names, else from the project's own
//! `target/staticlib`, where `tools/library` makes it, by `rt lib`, if it is not there.

use std::path::{Path, PathBuf};
use std::process::Command;

const ARCHIVE: &str = "libpavuneshil.a";

fn main() {
    println!("cargo:rerun-if-env-changed=PAVUNESHIL_LIB");
    let folder = match std::env::var_os("PAVUNESHIL_LIB") {
        Some(folder) => PathBuf::from(folder),
        None => {
            let here = std::env::var_os("CARGO_MANIFEST_DIR").expect("cargo sets it");
            made(&Path::new(&here).join("../.."))
        }
    };
    let archive = folder.join(ARCHIVE);
    assert!(archive.exists(), "no {}", archive.display());
    println!("cargo:rerun-if-changed={}", archive.display());
    println!("cargo:rustc-link-search=native={}", folder.display());
    println!("cargo:rustc-link-lib=static=pavuneshil");
}

/// The folder of the archive, which is made if it is missing.
fn made(project: &Path) -> PathBuf {
    let folder = project.join("target/staticlib");
    if !folder.join(ARCHIVE).exists() {
        let status = Command::new(project.join("tools/library"))
            .stdout(std::process::Stdio::null())
            .status()
            .expect("tools/library of the project is needed");
        assert!(status.success(), "tools/library failed");
    }
    folder
}
