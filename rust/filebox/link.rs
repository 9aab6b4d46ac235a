// How the crates over a static library find it, for their build scripts. Its folder is FILEBOX_LIB, if that is set; else
// `target/staticlib` of the repository, where `.ci/staticlib` writes it, which is run if the library is not there.
use std::env;
use std::path::{Path, PathBuf};
use std::process::Command;

/// The folder of the repository in which the library is written.
fn folder(library: &str) -> PathBuf {
    let crate_root = env::var("CARGO_MANIFEST_DIR").expect("cargo sets it");
    let root = Path::new(&crate_root).join("../..");
    let folder = root.join("target/staticlib");
    if !folder.join(file(library)).exists() {
        write_library(&root, library);
    }
    folder
}

fn file(library: &str) -> String {
    format!("lib{library}.a")
}

fn write_library(root: &Path, library: &str) {
    let status = Command::new(root.join(".ci/staticlib"))
        .arg(library)
        .status()
        .expect("`.ci/staticlib` writes the library; without rt, FILEBOX_LIB names its folder");
    assert!(status.success(), ".ci/staticlib {library}: {status}");
}

/// Link the static library that `.ci/staticlib` writes of this crate.
pub fn link(library: &str) {
    println!("cargo:rerun-if-env-changed=FILEBOX_LIB");
    let folder = env::var_os("FILEBOX_LIB").map_or_else(|| folder(library), PathBuf::from);
    let written = folder.join(file(library));
    println!("cargo:rerun-if-changed={}", written.display());
    println!("cargo:rustc-link-search=native={}", folder.display());
    println!("cargo:rustc-link-lib=static={library}");
}
