//! Links libhub.a from the directory that HUB_LIB_DIR names and, where HUB_BEFORE names one, the object of an earlier library, whose moves between the
//! versions of an image are called if HUB_BEFORE_MOVES is set.
fn main() {
    let directory = std::env::var("HUB_LIB_DIR").expect("HUB_LIB_DIR names the directory of libhub.a");
    println!("cargo:rerun-if-env-changed=HUB_LIB_DIR");
    println!("cargo:rerun-if-changed={directory}/libhub.a");
    println!("cargo:rustc-link-arg={directory}/libhub.a");
    println!("cargo:rustc-check-cfg=cfg(before)");
    println!("cargo:rustc-check-cfg=cfg(before_moves)");
    println!("cargo:rerun-if-env-changed=HUB_BEFORE");
    if let Ok(object) = std::env::var("HUB_BEFORE") {
        println!("cargo:rustc-cfg=before");
        println!("cargo:rerun-if-changed={object}");
        println!("cargo:rustc-link-arg={object}");
    }
    println!("cargo:rerun-if-env-changed=HUB_BEFORE_MOVES");
    if std::env::var("HUB_BEFORE_MOVES").is_ok() {
        println!("cargo:rustc-cfg=before_moves");
    }
}
