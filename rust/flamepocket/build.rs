//! Links the proved static library: from `target/staticlib` of the repository's root, or from
//! where the variable `FLAMEPOCKET_LIB_DIR` says.

use std::env;
use std::path::PathBuf;

const PLACE: &str = "FLAMEPOCKET_LIB_DIR";

fn main() {
    println!("cargo::rerun-if-env-changed={PLACE}");
    let folder = match env::var_os(PLACE) {
        Some(folder) => PathBuf::from(folder),
        None => PathBuf::from(env::var_os("CARGO_MANIFEST_DIR").unwrap_or_default()).join("../../target/staticlib"),
    };
    let library = folder.join("libflamepocket.a");
    println!("cargo::rerun-if-changed={}", library.display());
    if !library.is_file() {
        println!("cargo::error=there is no {}", library.display());
        println!("cargo::error=run `tools/staticlib flamepocket` in the repository's root, or name its folder in {PLACE}");
        return;
    }
    println!("cargo::rustc-link-search=native={}", folder.display());
    println!("cargo::rustc-link-lib=static=flamepocket");
}
