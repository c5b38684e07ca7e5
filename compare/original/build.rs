//! Writes a crate root whose modules are the original's five files where they lie.
use std::{env, fs, path::Path};

const FILES: [&str; 5] = ["block", "chunk", "error", "noise", "terrain"];

fn main() {
    println!("cargo:rerun-if-env-changed=URATH_SRC");
    let source = env::var("URATH_SRC").expect("URATH_SRC names the folder of the original");
    let folder = Path::new(&source).join("crates/urath-core/src");
    let mut root = String::new();
    for name in FILES {
        let file = folder.join(format!("{name}.rs"));
        println!("cargo:rerun-if-changed={}", file.display());
        root.push_str(&format!("#[path = {:?}]\npub mod {name};\n", file));
    }
    let out = env::var("OUT_DIR").expect("cargo sets OUT_DIR");
    fs::write(Path::new(&out).join("root.rs"), root).expect("OUT_DIR can be written");
}
