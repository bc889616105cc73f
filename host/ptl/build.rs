//! Links the static library `libcapi.a`: from the directory that PTL_LIB_DIR names, else from
//! `target/staticlib` of the repository.

use std::env;
use std::path::PathBuf;

fn main() {
    println!("cargo:rerun-if-env-changed=PTL_LIB_DIR");
    let here = PathBuf::from(env::var_os("CARGO_MANIFEST_DIR").unwrap_or_default());
    let directory = match env::var_os("PTL_LIB_DIR") {
        Some(named) => PathBuf::from(named),
        None => here.join("../../target/staticlib"),
    };
    let library = directory.join("libcapi.a");
    println!("cargo:rerun-if-changed={}", library.display());
    println!("cargo:rustc-link-search=native={}", directory.display());
    println!("cargo:rustc-link-lib=static=capi");
}
