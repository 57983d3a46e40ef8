//! Links libexport.a: target/staticlib has it in the repository, where `oracle/archives export` writes it, and lib in a distribution.
use std::path::Path;

fn main() {
    let top = Path::new(env!("CARGO_MANIFEST_DIR")).join("../..");
    let folder = top.join(if top.join("crates").exists() { "target/staticlib" } else { "lib" });
    println!("cargo:rustc-link-search=native={}", folder.display());
    println!("cargo:rustc-link-lib=static:-bundle=export");
    println!("cargo:rerun-if-changed={}", folder.join("libexport.a").display());
}
