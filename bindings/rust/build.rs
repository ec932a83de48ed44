//! Links the proved library, libsprettuhol.a: the one in the folder that SPRETTUHOL_LIB_DIR names, or
//! else in target/staticlib of the repository that this crate stands in, where tools/archive writes it.

use std::env::var_os;
use std::path::{Path, PathBuf};

fn main() {
    println!("cargo:rerun-if-env-changed=SPRETTUHOL_LIB_DIR");
    let folder = folder();
    // the whole path, for the compiler may stand in another folder than this script
    let folder = folder.canonicalize().unwrap_or(folder);
    let archive = folder.join("libsprettuhol.a");
    if !archive.is_file() {
        eprintln!(
            "no {}: run tools/archive, or set SPRETTUHOL_LIB_DIR to the whole path of the folder that has it",
            archive.display()
        );
        std::process::exit(1);
    }
    println!("cargo:rerun-if-changed={}", archive.display());
    println!("cargo:rustc-link-search=native={}", folder.display());
    println!("cargo:rustc-link-lib=static=sprettuhol");
}

fn folder() -> PathBuf {
    if let Some(folder) = var_os("SPRETTUHOL_LIB_DIR") {
        return folder.into();
    }
    let here = var_os("CARGO_MANIFEST_DIR").expect("cargo sets CARGO_MANIFEST_DIR");
    Path::new(&here).join("../../target/staticlib")
}
