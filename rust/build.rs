//! Finds the static library that the crate stands on: in the folder that `MEZZULIDDA_LIB_DIR` names or,
//! without one, in `lib/TARGET` beside this file, where what was proved and built is kept. Cargo alone is
//! enough there.
//!
//! Where there is none for a target, that is said, and what doesn't link goes on: `cargo check`, `cargo doc`.

use std::env;
use std::path::{Path, PathBuf};

const ARCHIVE: &str = "libmezzulidda.a";

/// The targets that a library is kept for.
fn kept(folder: &Path) -> String {
    let entries = folder.read_dir().into_iter().flatten().flatten();
    let mut targets: Vec<_> = entries
        .filter(|entry| entry.path().join(ARCHIVE).is_file())
        .filter_map(|entry| entry.file_name().into_string().ok())
        .collect();
    targets.sort();
    targets.join(", ")
}

fn main() {
    println!("cargo::rerun-if-env-changed=MEZZULIDDA_LIB_DIR");
    println!("cargo::rustc-link-lib=static=mezzulidda");
    let named = env::var_os("MEZZULIDDA_LIB_DIR").filter(|dir| !dir.is_empty());
    let target = env::var("TARGET").expect("cargo sets it");
    let folder = Path::new(env!("CARGO_MANIFEST_DIR")).join("lib");
    let archive = match &named {
        Some(dir) => PathBuf::from(dir).join(ARCHIVE),
        None => folder.join(&target).join(ARCHIVE),
    };
    println!("cargo::rerun-if-changed={}", archive.display());
    match archive.canonicalize() {
        Ok(file) => println!(
            "cargo::rustc-link-search=native={}",
            file.with_file_name("").display()
        ),
        Err(error) if named.is_some() => println!(
            "cargo::error=no static library at {}, where MEZZULIDDA_LIB_DIR has it: {error}",
            archive.display()
        ),
        Err(_) => println!(
            "cargo::warning=mezzulidda has no library for {target}, only for {}: nothing that links \
             with it can be built (`cargo check` and `cargo doc` can)",
            kept(&folder)
        ),
    }
}
