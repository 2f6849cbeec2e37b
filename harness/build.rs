//! Tells the linker where the proved library is: `PETROLYAZ_LIB`, or where `.ci/build` writes it.

use std::path::PathBuf;

fn main() {
    let package = PathBuf::from(std::env::var("CARGO_MANIFEST_DIR").expect("cargo names the package"));
    let folder = match std::env::var("PETROLYAZ_LIB") {
        Ok(folder) => PathBuf::from(folder),
        Err(_) => package.join("../target/staticlib"),
    };
    println!("cargo:rerun-if-env-changed=PETROLYAZ_LIB");
    println!("cargo:rerun-if-changed={}", folder.join("libexports.a").display());
    println!("cargo:rustc-link-search=native={}", folder.display());
    println!("cargo:rustc-link-lib=static:-bundle=exports");
}
