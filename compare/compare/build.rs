//! Compiles the plain C digest that `compare bench` times.

use std::env;
use std::path::Path;
use std::process::{self, Command};

const SOURCE: &str = "src/plain_sha256.c";

fn main() {
    println!("cargo:rerun-if-changed={SOURCE}");
    let object = Path::new(&env::var("OUT_DIR").unwrap_or_default()).join("plain_sha256.o");
    let compiled = Command::new("cc").args(["-O2", "-c", SOURCE, "-o"]).arg(&object).status();
    match compiled {
        Ok(status) if status.success() => {}
        Ok(status) => stop(&format!("`cc -O2 -c {SOURCE}` ended with {status}.")),
        Err(error) => stop(&format!("a C compiler is needed for {SOURCE}; `cc`: {error}.")),
    }
    println!("cargo:rustc-link-arg={}", object.display());
}

fn stop(why: &str) -> ! {
    eprintln!("{why}");
    process::exit(1);
}
