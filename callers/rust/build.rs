//! Links the proved library: that of the environment variable DAGCBOR_LIBRARY; else the one that a
//! release has in lib/; else that of this repository, which is proved and built first if it is
//! not there and the toolchain's `rt` is.

use std::path::{Path, PathBuf};
use std::process::{Command, Stdio};

fn main() {
    println!("cargo:rerun-if-env-changed=DAGCBOR_LIBRARY");
    let archive = match std::env::var_os("DAGCBOR_LIBRARY") {
        Some(named) => PathBuf::from(named),
        None => carried_or_built(Path::new(env!("CARGO_MANIFEST_DIR"))),
    };
    let archive = archive.canonicalize().unwrap_or_else(|_| {
        panic!(
            "there is no {}: `rt lib` in crates/dagcbor_ffi makes it",
            archive.display()
        )
    });
    assert!(
        archive.ends_with("libdagcbor_ffi.a"),
        "DAGCBOR_LIBRARY is the path of libdagcbor_ffi.a"
    );
    println!("cargo:rerun-if-changed={}", archive.display());
    println!(
        "cargo:rustc-link-search=native={}",
        archive.parent().unwrap().display()
    );
    println!("cargo:rustc-link-lib=static=dagcbor_ffi");
}

/// The path of the library in this folder, or of the repository's own.
fn carried_or_built(here: &Path) -> PathBuf {
    let machine = std::env::var("CARGO_CFG_TARGET_ARCH").unwrap_or_default();
    let carried = here.join("lib").join(machine).join("libdagcbor_ffi.a");
    let folder = here.join("../../crates/dagcbor_ffi");
    let archive = folder.join("out/libdagcbor_ffi.a");
    if carried.exists() {
        return carried;
    }
    if !archive.exists() {
        // If there is no `rt`, the archive is missed above.
        let _ = Command::new("rt")
            .arg("lib")
            .current_dir(folder)
            .stdin(Stdio::null())
            .stdout(Stdio::null())
            .status();
    }
    archive
}
