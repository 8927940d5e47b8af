//! Links the static library that `tools/library` makes, or the one in the folder that MARGINS_LIBRARY names.
use std::env;
use std::fs;
use std::path::{Path, PathBuf};
use std::process::exit;

const ARCHIVE: &str = "libmargins.a";

fn main() {
    println!("cargo:rerun-if-env-changed=MARGINS_LIBRARY");
    println!("cargo:rerun-if-changed=build.rs");
    let processor = env::var("CARGO_CFG_TARGET_ARCH").expect("cargo names the target's processor");
    let library = library_folder();
    let Some(folder) = folders(&library, &processor).into_iter().find(|folder| serves(&folder.join(ARCHIVE), &processor)) else {
        let looked_in = library.display();
        eprintln!("no {ARCHIVE} for {processor} in {looked_in}: run tools/library or set MARGINS_LIBRARY to the folder that has it");
        exit(1);
    };
    println!("cargo:rerun-if-changed={}", folder.join(ARCHIVE).display());
    println!("cargo:rustc-link-search=native={}", folder.display());
    println!("cargo:rustc-link-lib=static=margins");
}

fn library_folder() -> PathBuf {
    let crate_folder = PathBuf::from(env::var_os("CARGO_MANIFEST_DIR").expect("cargo names the folder of the crate"));
    match env::var_os("MARGINS_LIBRARY") {
        Some(named) if !named.is_empty() => crate_folder.join(named),
        _ => crate_folder.join("../target/library"),
    }
}

/// Where the archive may be: `tools/library` makes one for x86-64 everywhere, and one for the processor that it runs on.
fn folders(library: &Path, processor: &str) -> Vec<PathBuf> {
    match processor {
        "x86_64" => vec![library.join("x86-64"), library.into()],
        _ => vec![library.into()],
    }
}

/// An archive for another processor would fail only in the linker, in words that help nobody.
fn serves(archive: &Path, processor: &str) -> bool {
    let Ok(bytes) = fs::read(archive) else { return false };
    let machine = bytes.windows(20).find(|head| head.starts_with(b"\x7fELF")).map(|head| u16::from_le_bytes([head[18], head[19]]));
    match machine {
        Some(62) => processor == "x86_64",
        Some(183) => processor == "aarch64",
        _ => true,
    }
}
