//! Links the proved library, which `rt lib` writes in its crate.

fn main() {
    let package = std::env::var("CARGO_MANIFEST_DIR").expect("the package's folder");
    let archive = format!("{package}/../../crates/nagbiro/out");
    println!("cargo:rustc-link-search=native={archive}");
    println!("cargo:rustc-link-lib=static=nagbiro");
    println!("cargo:rerun-if-changed={archive}/libnagbiro.a");
}
