//! Links libhub.a from the directory that HUB_LIB_DIR names.

use std::path::Path;

/// Tells cargo where the library is, if it is told itself.
fn main() {
    println!("cargo:rerun-if-env-changed=HUB_LIB_DIR");
    if let Ok(directory) = std::env::var("HUB_LIB_DIR") {
        let library = Path::new(&directory).join("libhub.a");
        let library = library.canonicalize().unwrap_or_else(|error| panic!("{}: {error}", library.display()));
        println!("cargo:rerun-if-changed={}", library.display());
        println!("cargo:rustc-link-arg-bins={}", library.display());
    }
}
