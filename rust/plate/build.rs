//! Links libplate.a, which `rt lib` writes in crates/plate.

fn main() {
    let root = std::path::Path::new(env!("CARGO_MANIFEST_DIR")).join("../../crates/plate/out");
    println!("cargo:rustc-link-search=native={}", root.display());
    println!("cargo:rustc-link-lib=static=plate");
    println!("cargo:rerun-if-changed={}", root.join("libplate.a").display());
}
