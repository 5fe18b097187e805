//! Links the proved payload reader: from `target/staticlib` of the repository's root, or from where the variable
//! `FLAMEPOCKET_LIB_DIR` says. And hands on how the Rust code is compiled, for the benchmark to say.

use std::env;
use std::path::PathBuf;
use std::process::Command;

const PLACE: &str = "FLAMEPOCKET_LIB_DIR";

fn main() {
    link();
    println!("cargo::rustc-env=COMPILED={}", compiled());
}

fn link() {
    println!("cargo::rerun-if-env-changed={PLACE}");
    let folder = match env::var_os(PLACE) {
        Some(folder) => PathBuf::from(folder),
        None => PathBuf::from(env::var_os("CARGO_MANIFEST_DIR").unwrap_or_default()).join("../../target/staticlib"),
    };
    let library = folder.join("libreader.a");
    println!("cargo::rerun-if-changed={}", library.display());
    if !library.is_file() {
        println!("cargo::error=there is no {}", library.display());
        println!("cargo::error=run `tools/staticlib reader` in the repository's root, or name its folder in {PLACE}");
        return;
    }
    println!("cargo::rustc-link-search=native={}", folder.display());
    println!("cargo::rustc-link-lib=static=reader");
}

fn compiled() -> String {
    let said = |name| env::var(name).unwrap_or_default();
    let version = Command::new(said("RUSTC")).arg("--version").output().map(|output| output.stdout).unwrap_or_default();
    let flags = match &said("CARGO_ENCODED_RUSTFLAGS").replace('\x1f', " ")[..] {
        "" => "no flags of its own".to_string(),
        flags => format!("flags {flags}"),
    };
    format!(
        "{}, opt-level {}, {}, {flags}",
        String::from_utf8_lossy(&version).trim(),
        said("OPT_LEVEL"),
        said("TARGET")
    )
}
