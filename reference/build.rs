//! Points the linker at the proved library, `libsumbilak.a`.
//!
//! The folder comes from `SUMBILAK_LIB_DIR`, else `../target/staticlib` beside
//! this package. Without an archive there the model and its unit tests still
//! build; only what calls the library fails to link.

use std::env;
use std::path::PathBuf;

fn main() {
    println!("cargo:rerun-if-changed=build.rs");
    println!("cargo:rerun-if-env-changed=SUMBILAK_LIB_DIR");

    let package = PathBuf::from(env::var_os("CARGO_MANIFEST_DIR").expect("set by cargo"));
    let folder = match env::var_os("SUMBILAK_LIB_DIR") {
        Some(folder) => package.join(folder),
        None => package.join("../target/staticlib"),
    };
    let archive = folder.join("libsumbilak.a");
    println!("cargo:rerun-if-changed={}", archive.display());

    if archive.is_file() {
        println!("cargo:rustc-link-search=native={}", folder.display());
        println!("cargo:rustc-link-lib=static=sumbilak");
    } else {
        println!(
            "cargo:warning=no libsumbilak.a found (set SUMBILAK_LIB_DIR): \
             only the model and its unit tests can be built"
        );
    }
}
