//! Links the static library: from the folder in the variable `NAGA_OPT_LIB_DIR`, or as it is built in this repository.

use std::path::{Path, PathBuf};
use std::process::Command;

/// Tells Cargo to link a static library in a folder.
fn link(folder: &Path, library: &str, how_to_build: &str) {
    let archive = folder.join(format!("lib{library}.a"));
    assert!(
        archive.is_file(),
        "there is no {}: {how_to_build}",
        archive.display()
    );
    println!("cargo::rustc-link-search=native={}", folder.display());
    println!("cargo::rustc-link-lib=static={library}");
    println!("cargo::rerun-if-changed={}", archive.display());
}

/// Returns the folder of Rattle's kit, in which the page is whose path `rt doc` prints.
fn kit() -> PathBuf {
    let ran = Command::new("rt").arg("doc").output();
    let ran = ran.expect("the command `rt` of Rattle's kit is missing from the PATH; it is not needed if NAGA_OPT_LIB_DIR is set");
    assert!(ran.status.success(), "the command `rt doc` failed");
    let page = String::from_utf8(ran.stdout).expect("the command `rt doc` prints a path in UTF-8");
    let folder = Path::new(page.trim()).parent();
    folder
        .expect("the command `rt doc` prints the path of a page")
        .to_path_buf()
}

fn main() {
    println!("cargo::rerun-if-env-changed=NAGA_OPT_LIB_DIR");
    if let Some(folder) = std::env::var_os("NAGA_OPT_LIB_DIR") {
        return link(
            Path::new(&folder),
            "naga_opt",
            "NAGA_OPT_LIB_DIR must be a folder that `tests/dist` has made",
        );
    }
    let kit = kit();
    let built = Path::new(env!("CARGO_MANIFEST_DIR")).join("../../crates/naga_capi/out");
    link(
        &built,
        "naga_capi",
        "run the command `rt lib` in crates/naga_capi, or set NAGA_OPT_LIB_DIR",
    );
    link(&kit.join("c"), "libc_c", "Rattle's kit must have it");
}
