//! Finds lora-phy's own files and writes the `mod` lines that take them in where they lie, so that none is copied.
use std::path::{Path, PathBuf};
use std::{env, fs, process};

const FILES: [&str; 7] = [
    "interface.rs",
    "mod_params.rs",
    "mod_traits.rs",
    "sx127x/mod.rs",
    "sx127x/radio_kind_params.rs",
    "sx127x/sx1272.rs",
    "sx127x/sx1276.rs",
];

/// The modules of the crate's root; those below `sx127x` are named by its own file.
const MODULES: [(&str, &str); 4] = [
    ("pub(crate) mod interface;", "interface.rs"),
    ("pub mod mod_params;", "mod_params.rs"),
    ("pub mod mod_traits;", "mod_traits.rs"),
    ("pub mod sx127x;", "sx127x/mod.rs"),
];

/// The folder that LORA_PHY_SRC names, or else the one beside the repository.
fn folder() -> PathBuf {
    let here = PathBuf::from(env::var_os("CARGO_MANIFEST_DIR").unwrap());
    match env::var_os("LORA_PHY_SRC") {
        // A relative path is meant from where cargo was called, and not from this crate.
        Some(named) => env::var_os("PWD").map_or(here, PathBuf::from).join(named),
        None => here.join("../../../shared/docs/src/src"),
    }
}

fn demand(file: &Path) {
    if !file.is_file() {
        eprintln!("There is no {}.", file.display());
        eprintln!("The oracle is built from lora-phy 3.0.1's own source files, which are not in this repository.");
        eprintln!("Put them at ../shared/docs/src/src beside the repository, or name their folder by LORA_PHY_SRC.");
        process::exit(1);
    }
    println!("cargo:rerun-if-changed={}", file.display());
}

fn main() {
    println!("cargo:rerun-if-changed=build.rs");
    println!("cargo:rerun-if-env-changed=LORA_PHY_SRC");
    let folder = folder();
    FILES.iter().for_each(|file| demand(&folder.join(file)));
    let folder = fs::canonicalize(folder).unwrap();
    let lines: String = MODULES
        .iter()
        .map(|(line, file)| format!("#[path = {:?}]\n{line}\n", folder.join(file)))
        .collect();
    let out = PathBuf::from(env::var_os("OUT_DIR").unwrap());
    fs::write(out.join("modules.rs"), lines).unwrap();
}
