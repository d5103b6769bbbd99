// The library: target/staticlib/libmarking.a of the repository, or of the folder that MARKING_LIB names.
use std::path::Path;

fn main() {
    let dir = std::env::var("MARKING_LIB").unwrap_or_else(|_| {
        let here = std::env::var("CARGO_MANIFEST_DIR").unwrap();
        Path::new(&here).join("../target/staticlib").to_string_lossy().into_owned()
    });
    println!("cargo:rustc-link-search=native={dir}");
    println!("cargo:rustc-link-lib=static=marking");
    println!("cargo:rerun-if-changed={dir}/libmarking.a");
    println!("cargo:rerun-if-env-changed=MARKING_LIB");
}
