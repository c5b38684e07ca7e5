//! Links the archive that `hosts/build` makes; PERILLAHINGE_LIB may name another.
use std::{env, path::PathBuf};

fn main() {
    println!("cargo:rerun-if-env-changed=PERILLAHINGE_LIB");
    let here = env::var("CARGO_MANIFEST_DIR").expect("cargo names the folder");
    let usual = PathBuf::from(here).join("../../target/host/lib/libperillahinge.a");
    let archive = env::var("PERILLAHINGE_LIB").map_or(usual, PathBuf::from);
    println!("cargo:rerun-if-changed={}", archive.display());
    let folder = archive.parent().expect("the archive lies in a folder");
    let name = archive
        .file_stem()
        .and_then(|s| s.to_str())
        .expect("the archive has a name");
    println!("cargo:rustc-link-search=native={}", folder.display());
    println!("cargo:rustc-link-lib=static={}", name.trim_start_matches("lib"));
}
