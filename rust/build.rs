//! Links the proved archive, `libguontrem.a`, from the directory in `GUONTREM_LIB_DIR` or from where `scripts/library` puts it.
use std::env;
use std::path::PathBuf;

const VARIABLE: &str = "GUONTREM_LIB_DIR";

fn library_directory() -> PathBuf {
    let crate_directory = PathBuf::from(env::var_os("CARGO_MANIFEST_DIR").expect("set by cargo"));
    let own = || crate_directory.parent().unwrap_or(&crate_directory).join("target/staticlib");
    env::var_os(VARIABLE).map_or_else(own, PathBuf::from)
}

fn main() {
    let directory = library_directory();
    let archive = directory.join("libguontrem.a");
    println!("cargo::rerun-if-env-changed={VARIABLE}");
    println!("cargo::rerun-if-changed={}", archive.display());
    if archive.is_file() {
        println!("cargo::rustc-link-search=native={}", directory.display());
        println!("cargo::rustc-link-lib=static=guontrem");
    } else {
        println!("cargo::error=no {}: run `bash scripts/library`, or set {VARIABLE}", archive.display());
    }
}
