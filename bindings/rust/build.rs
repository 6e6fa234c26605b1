//! Links the proved static libraries: target/staticlib/libNAME.a of the repository (`bindings/archives` writes them), or those in the folder that
//! MIRVASHEN_LIB names.
use std::path::PathBuf;

fn main() {
    println!("cargo:rerun-if-env-changed=MIRVASHEN_LIB");
    let folder = match std::env::var_os("MIRVASHEN_LIB") {
        Some(folder) => PathBuf::from(folder),
        None => PathBuf::from(std::env::var_os("CARGO_MANIFEST_DIR").unwrap()).join("../../target/staticlib"),
    };
    println!("cargo:rustc-link-search=native={}", folder.display());
    for name in ["exports", "timing_exports", "window_exports"] {
        let archive = folder.join(format!("lib{name}.a"));
        println!("cargo:rerun-if-changed={}", archive.display());
        if !archive.is_file() {
            println!("cargo:warning=no {}: run bindings/archives at the repository's root, or name its folder in MIRVASHEN_LIB", archive.display());
        }
        println!("cargo:rustc-link-lib=static={name}");
    }
}
