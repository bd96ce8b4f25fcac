// Links the archive of the player's library: from the directory that SEEK_LIB names, by default target of the repository.
use std::{env, fs, path::PathBuf};

fn main() {
    println!("cargo:rerun-if-env-changed=SEEK_LIB");
    let here = PathBuf::from(env::var("CARGO_MANIFEST_DIR").unwrap());
    let dir = env::var("SEEK_LIB").map(PathBuf::from).unwrap_or_else(|_| here.join("../../target"));
    let archive = dir.join("libseek.a");
    println!("cargo:rerun-if-changed={}", archive.display());
    assert!(fs::metadata(&archive).is_ok(), "no {}: run tools/archive", archive.display());
    println!("cargo:rustc-link-search=native={}", dir.display());
    println!("cargo:rustc-link-lib=static=seek");
}
