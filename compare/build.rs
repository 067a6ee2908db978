// Links the archive that `tools/build` writes.
fn main() {
    let root = std::env::var("CARGO_MANIFEST_DIR").unwrap();
    println!("cargo:rustc-link-search=native={root}/../target/staticlib");
    println!("cargo:rustc-link-lib=static=firmware");
    println!("cargo:rerun-if-changed={root}/../target/staticlib/libfirmware.a");
}
