//! Links the static library that `scripts/build urdinhosa` writes.
//!
//! It is looked for in the folder that URDINHOSA_LIB names, a relative one counted from this package; without that
//! variable, in the repository's own target/staticlib.

use std::env;
use std::path::{Path, PathBuf};

fn main() {
    println!("cargo:rerun-if-env-changed=URDINHOSA_LIB");
    let folder = library_folder();
    let archive = folder.join("liburdinhosa.a");
    println!("cargo:rerun-if-changed={}", archive.display());
    if !archive.is_file() {
        panic!(
            "{} is not there: run `scripts/build urdinhosa` first, or name its folder in URDINHOSA_LIB",
            archive.display()
        );
    }
    println!("cargo:rustc-link-search=native={}", folder.display());
    println!("cargo:rustc-link-lib=static=urdinhosa");
}

fn library_folder() -> PathBuf {
    let package = env::var_os("CARGO_MANIFEST_DIR").expect("cargo names the package's folder");
    let named = env::var_os("URDINHOSA_LIB").unwrap_or_else(|| "../../target/staticlib".into());
    Path::new(&package).join(named)
}
