//! Builds `faults.c`, the library that fails reads and writes, by the compiler that rustc links with. The product's
//! archive is linked by the build script of hosts/rust.
use std::{env, path::Path, process::Command};

fn main() {
    println!("cargo:rerun-if-changed=faults.c");
    let library = Path::new(&env::var("OUT_DIR").expect("cargo names a folder")).join("faults.so");
    let built = Command::new("cc")
        .args("-std=c11 -pedantic -Wall -Wextra -Werror -O1 -shared -fPIC faults.c -o".split(' '))
        .arg(&library)
        .status()
        .expect("cc runs");
    assert!(built.success(), "cc does not build faults.c");
    println!("cargo:rustc-env=FAULTS={}", library.display());
}
