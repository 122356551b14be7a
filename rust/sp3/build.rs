//! Finds the archive of the proved library and has it linked.

use std::env;
use std::path::PathBuf;

/// The folder of libsp3.a: SP3_LIB_DIR (a relative one begins at this crate's folder), or the repository's target/staticlib.
fn library_folder() -> PathBuf {
    let here = PathBuf::from(env::var_os("CARGO_MANIFEST_DIR").unwrap_or_default());
    match env::var_os("SP3_LIB_DIR").filter(|folder| !folder.is_empty()) {
        Some(folder) => here.join(folder),
        None => here.ancestors().nth(2).unwrap_or(&here).join("target/staticlib"),
    }
}

fn main() {
    let folder = library_folder();
    let archive = folder.join("libsp3.a");
    println!("cargo::rerun-if-env-changed=SP3_LIB_DIR");
    println!("cargo::rerun-if-changed={}", archive.display());
    if !archive.is_file() {
        println!(
            "cargo::error=no file {}: run `tests/archive.sh` in the repository, or set SP3_LIB_DIR to the folder of libsp3.a",
            archive.display()
        );
        return;
    }
    if env::var("CARGO_CFG_TARGET_ARCH").is_ok_and(|processor| processor != "x86_64") {
        println!("cargo::warning=libsp3.a is for x86-64: programs link for --target x86_64-unknown-linux-gnu only");
    }
    println!("cargo::rustc-link-search=native={}", folder.display());
    println!("cargo::rustc-link-lib=static=sp3");
}
