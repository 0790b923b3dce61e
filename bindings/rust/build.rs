//! Links libzq.a, of which ZQ_LIB names the folder; without it, that which `make -C bindings` makes.
fn main() {
    println!("cargo:rerun-if-env-changed=ZQ_LIB");
    let here = std::env::var("CARGO_MANIFEST_DIR").expect("cargo says where the crate is");
    let folder = std::env::var("ZQ_LIB").unwrap_or(format!("{here}/../out"));
    println!("cargo:rerun-if-changed={folder}/libzq.a");
    println!("cargo:rustc-link-search=native={folder}");
    println!("cargo:rustc-link-lib=static=zq");
}
