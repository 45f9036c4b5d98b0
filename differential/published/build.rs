#[path = "cut.rs"]
mod cut;
#[path = "sha256.rs"]
mod sha256;

use std::env;
use std::path::PathBuf;

/// The published tree: PAVRENNI_REFERENCE, or the folder shared/docs/src beside the repository.
fn source() -> PathBuf {
    match env::var_os("PAVRENNI_REFERENCE") {
        Some(path) => PathBuf::from(path),
        None => PathBuf::from(env::var_os("CARGO_MANIFEST_DIR").unwrap()).join("../../../shared/docs/src"),
    }
}

fn main() {
    println!("cargo:rerun-if-env-changed=PAVRENNI_REFERENCE");
    println!("cargo:rerun-if-changed=cut.rs");
    println!("cargo:rerun-if-changed=sha256.rs");
    let source = source();
    for (path, _) in cut::SOURCES {
        println!("cargo:rerun-if-changed={}", source.join(path).display());
    }
    if let Err(problem) = cut::cut(&source, &PathBuf::from(env::var_os("OUT_DIR").unwrap())) {
        panic!("the published Rust cannot be cut: {problem}\nPAVRENNI_REFERENCE names the folder that holds src/qec/decoder.rs");
    }
}
