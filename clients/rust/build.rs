//! Tells the linker where the library's archive for this processor stands: in target/native, where clients/build puts it.

use std::path::Path;

fn main() {
    let folder = Path::new(env!("CARGO_MANIFEST_DIR")).join("../../target/native");
    let archive = folder.join("libm95_c.a");
    if !archive.exists() {
        panic!("there is no target/native/libm95_c.a: run clients/build first");
    }
    println!("cargo:rerun-if-changed={}", archive.display());
    println!("cargo:rustc-link-search=native={}", folder.display());
    println!("cargo:rustc-link-lib=static=m95_c");
}
