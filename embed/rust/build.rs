// Links libarb.a from the folder ARB_LIB_DIR, or from where `make` in the folder above leaves it.
use std::path::PathBuf;

fn main() {
    println!("cargo:rerun-if-env-changed=ARB_LIB_DIR");
    let folder = std::env::var_os("ARB_LIB_DIR").map(PathBuf::from).unwrap_or_else(|| {
        PathBuf::from(std::env::var_os("CARGO_MANIFEST_DIR").unwrap()).join("../../target/embed")
    });
    println!("cargo:rerun-if-changed={}", folder.join("libarb.a").display());
    println!("cargo:rustc-link-search=native={}", folder.display());
    println!("cargo:rustc-link-lib=static=arb");
}
