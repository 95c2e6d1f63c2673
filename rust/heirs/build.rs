//! Tells the linker where the static library lies: in `HEIRS_LIBRARY`, or where `rt lib` writes it.
use std::env;
use std::path::PathBuf;

fn main() {
    let here = PathBuf::from(env::var_os("CARGO_MANIFEST_DIR").expect("cargo names the crate's folder"));
    let folder = env::var_os("HEIRS_LIBRARY").map_or_else(|| here.join("../../crates/exports/out"), PathBuf::from);
    println!("cargo::rerun-if-env-changed=HEIRS_LIBRARY");
    println!("cargo::rerun-if-changed={}", folder.join("libexports.a").display());
    println!("cargo::rustc-link-search=native={}", folder.display());
    println!("cargo::rustc-link-lib=static=exports");
}
