//! Links the product's library, which `make` builds.

use std::path::Path;

fn main() {
    let tests = Path::new(env!("CARGO_MANIFEST_DIR"))
        .parent()
        .expect("tests/");
    let folder = tests
        .parent()
        .expect("the repository")
        .join("build");
    println!("cargo:rustc-link-search=native={}", folder.display());
    println!("cargo:rustc-link-lib=static=lrpd");
    println!(
        "cargo:rerun-if-changed={}",
        folder.join("liblrpd.a").display()
    );
}
