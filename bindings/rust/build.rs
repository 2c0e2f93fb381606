//! Links target/staticlib/libzorambi.a, which `./zorambi build` writes in the project's root, or the one in the folder
//! that ZORAMBI_LIBRARY_FOLDER names, and takes down which one it is.

use std::env;
use std::fs;
use std::path::{Path, PathBuf};

#[path = "src/sha256.rs"]
mod sha256;

fn main() {
    println!("cargo::rerun-if-env-changed=ZORAMBI_LIBRARY_FOLDER");
    let folder = env::var_os("ZORAMBI_LIBRARY_FOLDER")
        .map_or_else(|| Path::new(env!("CARGO_MANIFEST_DIR")).join("../../target/staticlib"), PathBuf::from);
    let library = folder.join("libzorambi.a");
    println!("cargo::rerun-if-changed={}", library.display());
    if !library.is_file() {
        println!("cargo::error={} is missing: run `./zorambi build` in the project's root first", library.display());
        return;
    }
    println!("cargo::rustc-link-search=native={}", folder.display());
    println!("cargo::rustc-link-lib=static=zorambi");
    match fs::read(&library) {
        Ok(bytes) => println!("cargo::rustc-env=ZORAMBI_LIBRARY={}", identity(&bytes)),
        Err(error) => println!("cargo::error={}: {error}", library.display()),
    }
}

/// The start of the archive's hash, and what it says itself of the logic of the kit that proved it.
fn identity(archive: &[u8]) -> String {
    const LOGIC: &[u8] = b"rattle logic=";
    let at = archive.windows(LOGIC.len()).position(|bytes| bytes == LOGIC);
    let digits = at.map(|at| archive[at + LOGIC.len()..].iter().take(16).take_while(|byte| byte.is_ascii_hexdigit()));
    let logic: String = digits.into_iter().flatten().copied().map(char::from).collect();
    let hash = sha256::hex(&sha256::sha256(archive)[..8]);
    format!("library {hash}, rattle logic {}", if logic.is_empty() { "unknown" } else { &logic })
}
