//! Where the built program and the built library lie.

use std::path::{Path, PathBuf};

/// The program, unless `VIGAMBUL_PROGRAM` names another one to compare.
///
/// It panics where there is none: every test and measurement that asks needs it.
pub fn program() -> PathBuf {
    let path = match std::env::var_os("VIGAMBUL_PROGRAM") {
        Some(path) => PathBuf::from(path),
        None => Path::new(env!("CARGO_MANIFEST_DIR")).join("../../crates/vigambul/out/vigambul"),
    };
    // Tests start it in other folders, so a path from here would not do.
    match path.canonicalize() {
        Ok(path) => path,
        Err(error) => panic!(
            "the program {} is not there ({error}): build it first",
            path.display()
        ),
    }
}

/// The library that this package is linked to.
pub fn library() -> &'static Path {
    Path::new(env!("VIGAMBUL_ARCHIVE"))
}
