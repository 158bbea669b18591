//! Links the C functions from the static library.

use std::path::PathBuf;
use std::{env, process};

const FOLDER: &str = "ICON_CACHE_LIB_DIR";
const ARCHIVE: &str = "libicon_cache_c.a";

fn main() {
    let folder = folder();
    let archive = folder.join(ARCHIVE);
    println!("cargo:rerun-if-env-changed={FOLDER}");
    println!("cargo:rerun-if-changed={}", archive.display());
    if !archive.is_file() {
        eprintln!("error: there is no {}", archive.display());
        eprintln!("Build the static library first: rt lib, in crates/icon_cache_c");
        eprintln!(
            "If it stands elsewhere, name its folder in {FOLDER}: it must be an absolute path."
        );
        process::exit(1);
    }
    println!("cargo:rustc-link-search=native={}", folder.display());
    println!("cargo:rustc-link-lib=static=icon_cache_c");
}

fn folder() -> PathBuf {
    match env::var_os(FOLDER) {
        Some(folder) => PathBuf::from(folder),
        None => {
            let package = env::var_os("CARGO_MANIFEST_DIR").expect("cargo names the package");
            PathBuf::from(package).join("../../crates/icon_cache_c/out")
        }
    }
}
