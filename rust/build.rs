// Links the proved calls, which `rt lib` builds in crates/exports.
fn main() {
    let root = std::path::Path::new(env!("CARGO_MANIFEST_DIR")).parent().unwrap();
    println!("cargo:rustc-link-search=native={}", root.join("crates/exports/out").display());
    println!("cargo:rustc-link-lib=static=exports");
    println!("cargo:rerun-if-changed={}", root.join("crates/exports/out/libexports.a").display());
}
