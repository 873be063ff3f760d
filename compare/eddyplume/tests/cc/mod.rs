//! A C compiler and the archive.

use std::fs;
use std::path::{Path, PathBuf};
use std::process::Command;

/// A folder of its own for a test.
pub fn folder(name: &str) -> PathBuf {
    let folder = Path::new(env!("CARGO_TARGET_TMPDIR")).join(name);
    fs::create_dir_all(&folder).unwrap();
    folder
}

/// Compiles a C program, with the headers of include/ and of `folder`, and links the
/// archive: the program, which is written into `folder`, or what the compiler says.
pub fn compiled(source: &str, folder: &Path) -> Result<PathBuf, String> {
    let program = folder.join("program");
    let cc = Command::new("cc")
        .current_dir(env!("CARGO_MANIFEST_DIR"))
        .args(["-std=c99", "-Wall", "-Wextra", "-Wpedantic", "-Werror", "-I../../include", "-I"])
        .arg(folder)
        .args([source, env!("EDDYPLUME_ARCHIVE"), "-o"])
        .arg(&program)
        .output()
        .expect("a C compiler is needed: `cc`");
    if !cc.status.success() {
        return Err(String::from_utf8_lossy(&cc.stderr).into_owned());
    }
    Ok(program)
}
