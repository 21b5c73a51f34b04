//! Links the archives of the proved engine and of the proved routine for a whole tape, where the
//! tests that compare with them are asked for.

fn main() {
    println!("cargo:rerun-if-changed=build.rs");
    if std::env::var_os("CARGO_FEATURE_ENGINE").is_none() {
        return;
    }
    let here = std::env::var("CARGO_MANIFEST_DIR").expect("cargo names the package's folder");
    println!("cargo:rustc-link-search=native={here}/../target/staticlib");
    for archive in ["boundary", "replay"] {
        println!("cargo:rustc-link-lib=static={archive}");
        println!("cargo:rerun-if-changed={here}/../target/staticlib/lib{archive}.a");
    }
}
