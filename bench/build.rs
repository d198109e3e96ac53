//! Links the static library of the crate `exports`, which `rt lib` writes there, and the C code below Rattle's library.
use std::env::var;

fn main() {
    let library = format!("{}/../crates/exports/out", var("CARGO_MANIFEST_DIR").unwrap());
    let kit = var("RATTLE_KIT").expect("RATTLE_KIT: the folder of the Rattle kit");
    println!("cargo:rustc-link-search=native={library}");
    println!("cargo:rustc-link-search=native={kit}/c");
    println!("cargo:rustc-link-lib=static=exports");
    println!("cargo:rustc-link-lib=static=libc_c");
    println!("cargo:rerun-if-changed={library}/libexports.a");
    println!("cargo:rerun-if-env-changed=RATTLE_KIT");
}
