//! Links the library that counts the work of the calls, and that of an older commit, if the two are to be measured.

fn main() {
    let package = std::env::var("CARGO_MANIFEST_DIR").expect("the package's folder");
    let archive = format!("{package}/../crates/effort/out");
    println!("cargo:rustc-link-arg-bin=bench={archive}/libeffort.a");
    println!("cargo:rerun-if-changed={archive}/libeffort.a");
    if std::env::var("CARGO_FEATURE_AGAINST").is_ok() {
        let before = format!("{package}/../target/before/set.o");
        println!("cargo:rustc-link-arg-bin=against={before}");
        println!("cargo:rerun-if-changed={before}");
    }
}
