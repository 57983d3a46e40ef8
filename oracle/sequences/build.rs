//! Links the archives of the C interface that previews and starts need: `oracle/archives export export_preview` makes them.
use std::path::Path;

fn main() {
    let folder = Path::new(env!("CARGO_MANIFEST_DIR")).join("../../target/staticlib");
    println!("cargo:rustc-link-search=native={}", folder.display());
    for name in ["export_preview", "export"] {
        println!("cargo:rustc-link-lib=static:-bundle={name}");
        println!("cargo:rerun-if-changed={}", folder.join(format!("lib{name}.a")).display());
    }
}
