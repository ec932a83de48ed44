//! The build script of the Rust crates that call proved code (tests/differential, tests/peers, bench):
//! links the archives of target/staticlib that the crate calls, which tools/archive writes for this machine.

use std::path::Path;

fn main() {
    let here = std::env::var("CARGO_MANIFEST_DIR").expect("cargo sets CARGO_MANIFEST_DIR");
    let name = std::env::var("CARGO_PKG_NAME").expect("cargo sets CARGO_PKG_NAME");
    let mut above = Path::new(&here).ancestors();
    let root = above.find(|folder| folder.join("crates.txt").is_file());
    let root = root.expect("the top of the repository has crates.txt");
    let folder = root.join("target/staticlib");
    println!("cargo:rustc-link-search=native={}", folder.display());
    link(&folder, "sprettuhol");
    // the archives that are made for the tests alone
    if name == "differential" {
        link(&folder, "adpcm_ima");
        link(&folder, "sweep");
    }
}

fn link(folder: &Path, name: &str) {
    let archive = folder.join(format!("lib{name}.a"));
    let Ok(bytes) = std::fs::read(&archive) else {
        eprintln!("no {}: tools/archive {name} writes it", archive.display());
        std::process::exit(1);
    };
    println!("cargo:rerun-if-changed={}", archive.display());
    println!("cargo:rustc-link-lib=static={name}");
    // the program can say which archive it was linked with
    println!("cargo:rustc-env=HASH_OF_{name}={:016x}", fnv1a(&bytes));
}

/// FNV-1a of 64 bits.
fn fnv1a(bytes: &[u8]) -> u64 {
    bytes.iter().fold(0xcbf2_9ce4_8422_2325, |hash, &byte| {
        (hash ^ u64::from(byte)).wrapping_mul(0x0000_0100_0000_01b3)
    })
}
