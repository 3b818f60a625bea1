//! Links the static library: the archive that SX127X_ARCHIVE names, or the one that `oracle/library` makes.
use std::path::{Path, PathBuf};
use std::{env, process};

/// `rt lib` in crates/exports writes for x86-64; on another processor there is only the archive that is made for trying.
fn archive() -> PathBuf {
    let repository = Path::new(&env::var_os("CARGO_MANIFEST_DIR").unwrap()).join("../..");
    match env::var_os("SX127X_ARCHIVE") {
        // A relative path is meant from where cargo was called, and not from this crate.
        Some(named) => env::var_os("PWD").map_or(PathBuf::new(), PathBuf::from).join(named),
        None if env::var("CARGO_CFG_TARGET_ARCH").unwrap() == "x86_64" => {
            repository.join("crates/exports/out/libexports.a")
        }
        None => repository.join("target/native/libexports.a"),
    }
}

fn main() {
    println!("cargo:rerun-if-changed=build.rs");
    println!("cargo:rerun-if-env-changed=SX127X_ARCHIVE");
    let archive = archive();
    if !archive.is_file() {
        eprintln!("There is no {}: oracle/library makes it.", archive.display());
        process::exit(1);
    }
    println!("cargo:rerun-if-changed={}", archive.display());
    println!("cargo:rustc-link-search=native={}", archive.parent().unwrap().display());
    println!("cargo:rustc-link-lib=static=exports");
}
