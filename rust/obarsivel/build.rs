//! Links the proved reader's archive `libffi.a` from the folder OBARSIVEL_LIB,
//! default `../../target/staticlib`
//! (a relative folder counts from this crate); with the feature `mock` nothing is linked.
use std::env;
use std::path::PathBuf;

/// Names the archive to the linker, or says what is missing.
fn main() {
    println!("cargo:rerun-if-changed=build.rs");
    println!("cargo:rerun-if-env-changed=OBARSIVEL_LIB");
    if env::var_os("CARGO_FEATURE_MOCK").is_some() {
        return;
    }
    let here = PathBuf::from(env::var_os("CARGO_MANIFEST_DIR").expect("cargo names the folder"));
    let folder = match env::var_os("OBARSIVEL_LIB") {
        Some(folder) => here.join(PathBuf::from(folder)),
        None => here.join("../../target/staticlib"),
    };
    let archive = folder.join("libffi.a");
    println!("cargo:rerun-if-changed={}", archive.display());
    if !archive.is_file() {
        eprintln!("{} is missing: build it with `scripts/archive`,", archive.display());
        eprintln!("name its folder in OBARSIVEL_LIB, or build with `--features mock`.");
        std::process::exit(1);
    }
    println!("cargo:rustc-link-search=native={}", folder.display());
    println!("cargo:rustc-link-lib=static=ffi");
}
