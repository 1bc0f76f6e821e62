//! Links what build-probe leaves in this folder's own target; the wrapper links the library itself.
fn main() {
    let here = std::env::var("CARGO_MANIFEST_DIR").expect("cargo sets it");
    println!("cargo:rustc-link-search=native={here}/target/probe");
    println!("cargo:rustc-link-lib=static=probe");
    println!("cargo:rerun-if-changed={here}/target/probe/libprobe.a");
}
