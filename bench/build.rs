//! Links the product's library, which `make` builds, into the program alone.

use std::path::Path;

fn main() {
    let bench = Path::new(env!("CARGO_MANIFEST_DIR"));
    let library = bench
        .parent()
        .expect("the repository")
        .join("build/liblrpd.a");
    println!("cargo:rustc-link-arg-bins={}", library.display());
    println!("cargo:rerun-if-changed={}", library.display());
}
