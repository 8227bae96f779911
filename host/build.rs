// Links the proved library, which `rt lib` writes in its folder.
fn main() {
    let root = std::env::var("CARGO_MANIFEST_DIR").unwrap();
    println!("cargo:rustc-link-search=native={root}/../crates/press/out");
    println!("cargo:rustc-link-lib=static=press");
    println!("cargo:rerun-if-changed={root}/../crates/press/out/libpress.a");
}
