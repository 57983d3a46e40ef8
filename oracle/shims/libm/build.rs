//! Links the archives of the C interface: `oracle/archives` makes them.
use std::path::Path;

fn main() {
    let folder = Path::new(env!("CARGO_MANIFEST_DIR")).join("../../../target/staticlib");
    println!("cargo:rustc-link-search=native={}", folder.display());
    for name in ["export_leaves", "export_counts", "export_runs", "export_published", "export", "export_tools", "export_samples", "export_board", "export_mosaic", "export_eigenaxis"] {
        println!("cargo:rustc-link-lib=static:-bundle={name}");
        println!("cargo:rerun-if-changed={}", folder.join(format!("lib{name}.a")).display());
    }
}
