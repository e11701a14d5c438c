//! Links the proved static library, which `rt lib` in crates/tavumxa writes.
use std::path::Path;

fn main() {
    let folder = Path::new(env!("CARGO_MANIFEST_DIR")).join("../../crates/tavumxa/out");
    println!("cargo:rustc-link-search=native={}", folder.display());
    println!("cargo:rustc-link-lib=static=tavumxa");
    println!("cargo:rerun-if-changed={}", folder.join("libtavumxa.a").display());
}
