//! Links the library that `scripts/library` writes: from the folder that `COPPERYARN_LIB` names, else from `target/staticlib` of the repository.

use std::env;
use std::path::PathBuf;

fn main() {
    println!("cargo::rerun-if-env-changed=COPPERYARN_LIB");
    let folder = folder();
    let library = folder.join("libcopperyarn.a");
    println!("cargo::rerun-if-changed={}", library.display());
    if word("CARGO_CFG_TARGET_ARCH") != "x86_64" || word("CARGO_CFG_TARGET_OS") != "linux" {
        println!(
            "cargo::error=the library is made for Linux on x86-64 alone, and this build is for {}",
            word("TARGET")
        );
    } else if !library.is_file() {
        println!(
            "cargo::error=there is no {}: run `scripts/library` in the repository, or let COPPERYARN_LIB name the folder that has it",
            library.display()
        );
    } else {
        println!("cargo::rustc-link-search=native={}", folder.display());
        println!("cargo::rustc-link-lib=static=copperyarn");
    }
}

fn folder() -> PathBuf {
    match env::var_os("COPPERYARN_LIB") {
        Some(folder) => PathBuf::from(folder),
        None => PathBuf::from(word("CARGO_MANIFEST_DIR")).join("../target/staticlib"),
    }
}

fn word(name: &str) -> String {
    env::var(name).unwrap_or_default()
}
