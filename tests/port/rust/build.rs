//! Links libport.a from the folder that the variable PORT_ARCHIVE names, or from where `bash tests/archives port` writes it.
use std::env;

fn main() {
    let here = env::var("CARGO_MANIFEST_DIR").unwrap_or_default();
    let folder = env::var("PORT_ARCHIVE").unwrap_or_else(|_| format!("{here}/../../../target/staticlib"));
    println!("cargo:rerun-if-env-changed=PORT_ARCHIVE");
    println!("cargo:rerun-if-changed={folder}/libport.a");
    println!("cargo:rustc-link-search=native={folder}");
}
