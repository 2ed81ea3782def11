//! Links liblus.a, which lies beside this crate's Cargo.toml, or in the folder that LUS_LIB names.
fn main() {
    let folder = std::env::var("LUS_LIB").unwrap_or_else(|_| std::env::var("CARGO_MANIFEST_DIR").unwrap());
    println!("cargo:rerun-if-env-changed=LUS_LIB");
    println!("cargo:rustc-link-search=native={folder}");
    println!("cargo:rustc-link-lib=static=lus");
}
