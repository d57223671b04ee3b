//! A C program of the tests, linked to the library.

use std::path::{Path, PathBuf};
use std::process::Command;

/// The program of `tests/NAME.c`, which includes the library's header and compiles
/// without a warning.
pub fn compiled(name: &str) -> PathBuf {
    let package = Path::new(env!("CARGO_MANIFEST_DIR"));
    let program = Path::new(env!("CARGO_TARGET_TMPDIR")).join(name);
    let compiled = Command::new("cc")
        .args(["-std=c99", "-Wall", "-Wextra", "-Wpedantic", "-Werror"])
        .arg("-I")
        .arg(package.join("include"))
        .arg(package.join("tests").join(name).with_extension("c"))
        .arg(env!("AEZ_LIBRARY"))
        .arg("-o")
        .arg(&program)
        .output()
        .expect("the C compiler cc starts");
    let messages = String::from_utf8_lossy(&compiled.stderr);
    assert!(compiled.status.success(), "{messages}");
    program
}
