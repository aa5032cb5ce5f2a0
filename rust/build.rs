//! Links `libmc33_c.a` from the folder that `MC33_LIB_DIR` names (counted from this one where it is relative), or
//! from `target/staticlib` of this repository. Documentation and `cargo check` need no archive, so that it is not
//! there is a warning. Who links gets an error, and since `cargo --quiet` has no warnings, the name in it says what
//! to do.
use std::path::PathBuf;

const HELP: &str = "run ./install.sh, or set MC33_LIB_DIR";

fn main() {
    println!("cargo:rerun-if-env-changed=MC33_LIB_DIR");
    let named = std::env::var_os("MC33_LIB_DIR").unwrap_or("../target/staticlib".into());
    let folder = PathBuf::from(std::env::var_os("CARGO_MANIFEST_DIR").unwrap()).join(named);
    let archive = folder.join("libmc33_c.a");
    println!("cargo:rerun-if-changed={}", archive.display());
    println!("cargo:rustc-link-search=native={}", folder.display());
    if archive.exists() {
        println!("cargo:rustc-link-lib=static=mc33_c");
    } else {
        println!("cargo:warning={} is not there: {HELP}", archive.display());
        println!("cargo:rustc-link-lib=static=mc33_c ({HELP})");
    }
}
