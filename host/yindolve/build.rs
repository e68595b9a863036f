//! Links the static library: the one that YINDOLVE_LIBRARY names, or crates/c_library/out/libc_library.a of the repository. Its file may have
//! any name: it is copied to the build's own folder as libyindolve.a.

use std::path::{Path, PathBuf};

/// Names that the library has in a folder: as it is installed, and as it is built.
const NAMES: [&str; 2] = ["libyindolve.a", "libc_library.a"];
/// The newest function, by which an old library is told.
const FUNCTION: &str = "yindolve_reduce";
const HELP: &str = "Run `rt lib` in crates/c_library of the repository, or let YINDOLVE_LIBRARY name a library or its folder.";

fn main() {
    println!("cargo:rerun-if-env-changed=YINDOLVE_LIBRARY");
    let (file, whence) = match std::env::var_os("YINDOLVE_LIBRARY") {
        Some(path) => (in_folder(PathBuf::from(path)), "which YINDOLVE_LIBRARY names"),
        None => (built(), "where the repository's build writes it"),
    };
    println!("cargo:rerun-if-changed={}", file.display());
    let path = std::path::absolute(&file).unwrap_or(file);
    let fail = |what: &str| -> ! {
        eprintln!("{what}: {}, {whence}.\n{HELP}", path.display());
        std::process::exit(1)
    };
    if path.is_dir() {
        fail(&format!("This folder has neither {} nor {}", NAMES[0], NAMES[1]));
    }
    let bytes = match std::fs::read(&path) {
        Ok(bytes) => bytes,
        Err(error) => fail(&format!("The static library cannot be read ({error})")),
    };
    if !bytes.starts_with(b"!<arch>\n") {
        fail("This file is no static library");
    }
    if !bytes.windows(FUNCTION.len()).any(|window| window == FUNCTION.as_bytes()) {
        fail(&format!("This static library is another one, or an old one that has no {FUNCTION}"));
    }
    let folder = PathBuf::from(std::env::var_os("OUT_DIR").expect("cargo sets OUT_DIR"));
    if let Err(error) = std::fs::write(folder.join(NAMES[0]), &bytes) {
        fail(&format!("The static library cannot be copied to {} ({error})", folder.display()));
    }
    println!("cargo:rustc-link-search=native={}", folder.display());
    println!("cargo:rustc-link-lib=static=yindolve");
}

fn built() -> PathBuf {
    Path::new(env!("CARGO_MANIFEST_DIR")).join("../../crates/c_library/out").join(NAMES[1])
}

/// The library in a folder, or the path itself.
fn in_folder(path: PathBuf) -> PathBuf {
    NAMES.iter().map(|name| path.join(name)).find(|inside| inside.is_file()).unwrap_or(path)
}
