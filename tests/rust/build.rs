// Links the shipped archive, build/libaxp.a.
fn main() {
    let root = std::path::Path::new(env!("CARGO_MANIFEST_DIR")).join("../../build");
    println!("cargo:rustc-link-search=native={}", root.display());
    println!("cargo:rustc-link-lib=static=axp");
    println!("cargo:rerun-if-changed={}/libaxp.a", root.display());
}
