//! Finds libeddyplume.a, has it linked, and names it to the tests that compile C.

use std::env;
use std::path::{Path, PathBuf};
use std::process;

const ARCHIVE: &str = "libeddyplume.a";

fn main() {
    println!("cargo:rerun-if-env-changed=EDDYPLUME_LIB");
    let folder = folder();
    let archive = folder.join(ARCHIVE);
    println!("cargo:rerun-if-changed={}", archive.display());
    if !archive.is_file() {
        eprintln!("{} is missing.", archive.display());
        eprintln!("Make it with `rt lib` in crates/eddyplume,");
        eprintln!("or set EDDYPLUME_LIB to the folder that holds it.");
        process::exit(1);
    }
    println!("cargo:rustc-link-search=native={}", folder.display());
    println!("cargo:rustc-link-lib=static=eddyplume");
    println!("cargo:rustc-env=EDDYPLUME_ARCHIVE={}", archive.display());
}

/// The folder named by EDDYPLUME_LIB, or the one where `rt lib` writes.
fn folder() -> PathBuf {
    match env::var_os("EDDYPLUME_LIB") {
        Some(named) => {
            let named = PathBuf::from(named);
            let folder = if named.ends_with(ARCHIVE) { named.parent() } else { None };
            folder.map(Path::to_path_buf).unwrap_or(named)
        }
        None => Path::new(&env::var("CARGO_MANIFEST_DIR").unwrap_or_default())
            .join("../../crates/eddyplume/out"),
    }
}
