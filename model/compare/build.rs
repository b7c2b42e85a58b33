//! Links the static library with `vigambul_run`, `vigambul_extract`, `vigambul_extract_set`,
//! `vigambul_walk_bound`, `vigambul_match`, `vigambul_wires`, `vigambul_cores` and
//! `vigambul_order`.

use std::path::{Path, PathBuf};
use std::process::exit;

fn main() {
    println!("cargo:rerun-if-changed=build.rs");
    println!("cargo:rerun-if-env-changed=VIGAMBUL_LIBRARY");
    let archive = archive();
    // Also where it is missing: then the next build looks again.
    println!("cargo:rerun-if-changed={}", archive.display());
    if !archive.is_file() {
        eprintln!(
            "the library {} is missing: run `rt lib` in crates/capi first",
            archive.display()
        );
        exit(1);
    }
    let (Some(folder), Some(name)) = (archive.parent(), archive.file_name()) else {
        eprintln!("{} names no file", archive.display());
        exit(1);
    };
    // For tests that link it to programs of their own.
    println!("cargo:rustc-env=VIGAMBUL_ARCHIVE={}", archive.display());
    println!("cargo:rustc-link-search=native={}", folder.display());
    println!(
        "cargo:rustc-link-lib=static:+verbatim={}",
        Path::new(name).display()
    );
}

/// Where the library is built, unless another one is to be compared.
fn archive() -> PathBuf {
    match std::env::var_os("VIGAMBUL_LIBRARY") {
        Some(path) => PathBuf::from(path),
        None => Path::new(env!("CARGO_MANIFEST_DIR")).join("../../crates/capi/out/libcapi.a"),
    }
}
