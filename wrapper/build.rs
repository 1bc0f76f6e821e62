//! Links the library that `wrapper/build-library` leaves in the repository's target folder.
fn main() {
    let here = std::env::var("CARGO_MANIFEST_DIR").expect("cargo sets it");
    println!("cargo:rustc-link-search=native={here}/../target/staticlib");
    println!("cargo:rustc-link-lib=static=gustbook");
    println!("cargo:rerun-if-changed={here}/../target/staticlib/libgustbook.a");
}
