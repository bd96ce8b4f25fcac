// Links the archive of the player's library, which bench/run builds: from the directory that SEEK_LIB names, by default target.
use std::{env, path::PathBuf};

fn main() {
    println!("cargo:rerun-if-env-changed=SEEK_LIB");
    let here = PathBuf::from(env::var("CARGO_MANIFEST_DIR").unwrap());
    let dir = env::var("SEEK_LIB").map(PathBuf::from).unwrap_or_else(|_| here.join("../target"));
    println!("cargo:rustc-link-search=native={}", dir.display());
    println!("cargo:rustc-link-lib=static=seek");
    println!("cargo:rerun-if-changed={}", dir.join("libseek.a").display());
}
