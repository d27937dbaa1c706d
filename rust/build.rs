//! Finds the proved library, libdrainage.a, and has it linked into this crate.

use std::env;
use std::path::{Path, PathBuf};

fn main() {
    println!("cargo::rerun-if-env-changed=DRAINAGE_LIB_DIR");
    println!("cargo::rerun-if-changed=build.rs");

    // A whole path, as the linker may be run in another folder than this program.
    let manifest = env::var_os("CARGO_MANIFEST_DIR").expect("cargo sets CARGO_MANIFEST_DIR");
    let manifest = Path::new(&manifest);
    let folder: PathBuf = match env::var_os("DRAINAGE_LIB_DIR") {
        Some(chosen) if !chosen.is_empty() => manifest.join(chosen),
        _ => manifest.join("../target/staticlib"),
    };

    let archive = folder.join("libdrainage.a");
    println!("cargo::rerun-if-changed={}", archive.display());
    if !archive.is_file() {
        println!(
            "cargo::error={} is missing; build it, in the top folder of the repository, with: tools/build library",
            archive.display()
        );
        return;
    }
    println!("cargo::rustc-link-search=native={}", folder.display());
    println!("cargo::rustc-link-lib=static=drainage");
}
