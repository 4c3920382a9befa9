//! Links the static libraries that `tests/build vikelodu exports` writes.

use std::path::Path;

fn main() {
    let crates = Path::new(env!("CARGO_MANIFEST_DIR")).join("../../crates");
    for name in ["vikelodu", "exports"] {
        let folder = crates.join(name).join("out");
        println!("cargo:rustc-link-search=native={}", folder.display());
        println!("cargo:rustc-link-lib=static={name}");
        let file = folder.join(format!("lib{name}.a"));
        println!("cargo:rerun-if-changed={}", file.display());
    }
}
