//! Puts the original `seek.rs` and `seek/persist.rs` where the compiler finds them, their text
//! unchanged, and cuts the few items of `audio.rs` that they use.
//!
//! The sources are read from the directory that SEEK_SOURCES names, or from ../shared/docs/src
//! beside the checkout. Nothing of them is kept in this repository.

use std::path::{Path, PathBuf};
use std::{env, fs, process};

fn fail(what: String) -> ! {
    eprintln!("oracle: {what}");
    process::exit(1);
}

fn read(path: &Path) -> String {
    println!("cargo:rerun-if-changed={}", path.display());
    match fs::read_to_string(path) {
        Ok(text) => text,
        Err(e) => fail(format!(
            "cannot read {}: {e}; SEEK_SOURCES names the directory that holds crates/scarletbook/src",
            path.display()
        )),
    }
}

fn write(path: PathBuf, text: &str) {
    if let Err(e) = fs::write(&path, text) {
        fail(format!("cannot write {}: {e}", path.display()));
    }
}

/// The item whose first line begins with `head`: with the attribute and comment lines above it,
/// through the line that ends it (`}` alone, or the first line that ends with `;` where `head`
/// is a constant).
fn cut(text: &str, file: &str, head: &str) -> String {
    let lines: Vec<&str> = text.lines().collect();
    let at: Vec<usize> = (0..lines.len()).filter(|&i| lines[i].starts_with(head)).collect();
    let [at] = at[..] else {
        fail(format!("{file} has `{head}` at the start of {} lines, not of 1", at.len()));
    };
    let above = lines[..at].iter().rev().take_while(|l| l.starts_with("#[") || l.starts_with("///")).count();
    let constant = head.contains("const ");
    let end = lines[at..].iter().position(|l| if constant { l.ends_with(';') } else { *l == "}" });
    let Some(end) = end else { fail(format!("{file}: `{head}` has no end")) };
    lines[at - above..=at + end].join("\n") + "\n\n"
}

fn main() {
    println!("cargo:rerun-if-env-changed=SEEK_SOURCES");
    println!("cargo:rerun-if-changed=build.rs");
    let here = PathBuf::from(env::var_os("CARGO_MANIFEST_DIR").unwrap_or_default());
    let out = PathBuf::from(env::var_os("OUT_DIR").unwrap_or_default());
    let sources = match env::var_os("SEEK_SOURCES") {
        Some(dir) => PathBuf::from(dir),
        None => here.join("../../../../shared/docs/src"),
    };
    let dir = sources.join("crates/scarletbook/src");
    let seek = read(&dir.join("seek.rs"));
    let persist = read(&dir.join("seek/persist.rs"));
    let audio = read(&dir.join("audio.rs"));

    // Which sources were built: name, length and 64-bit FNV-1a of each.
    let sum = |text: &str| {
        text.bytes().fold(0xcbf2_9ce4_8422_2325u64, |h, b| (h ^ u64::from(b)).wrapping_mul(0x0100_0000_01b3))
    };
    let named = [("seek.rs", &seek), ("seek/persist.rs", &persist), ("audio.rs", &audio)];
    let named = named.map(|(name, text)| format!("{name} {} {:016x}", text.len(), sum(text)));
    println!("cargo:rustc-env=ORACLE_SOURCES={}", named.join(", "));

    // The two modules. Behind the text of seek.rs stands one line, which names a child module:
    // a child sees what is private above it.
    let original = out.join("original");
    if let Err(e) = fs::create_dir_all(&original) {
        fail(format!("cannot make {}: {e}", original.display()));
    }
    let access = here.join("src/access.rs");
    let child = format!("\n#[path = {:?}]\npub(crate) mod access;\n", access.display().to_string());
    write(original.join("seek.rs"), &(seek + &child));
    write(original.join("persist.rs"), &persist);
    write(
        out.join("modules.rs"),
        &format!("#[path = {:?}]\npub mod seek;\n", original.join("seek.rs").display().to_string()),
    );

    let heads = [
        "pub const MAX_FRAME_BYTES: usize",
        "pub const MAX_MALFORMED_WARNINGS: usize",
        "pub enum FrameKind {",
        "pub(crate) struct AreaKey {",
        "impl AreaKey {",
        "pub fn audio_sector_range(area: &Area, n: u64) -> (u64, u64) {",
    ];
    write(out.join("audio_cuts.rs"), &heads.map(|h| cut(&audio, "audio.rs", h)).concat());
    write(out.join("persist_cuts.rs"), &cut(&persist, "seek/persist.rs", "const MAX_NEXT_ACCEPTABLE: u32"));
}
