//! Links `libark_poly.a`: of the folder that `ARK_POLY_LIB` names, or of the repository's own.
use std::env;
use std::path::PathBuf;

fn main() {
    println!("cargo:rerun-if-env-changed=ARK_POLY_LIB");
    let folder = match env::var_os("ARK_POLY_LIB") {
        Some(folder) => PathBuf::from(folder),
        None => PathBuf::from(env::var_os("CARGO_MANIFEST_DIR").unwrap()).join("../../out/lib"),
    };
    let archive = folder.join("libark_poly.a");
    if !archive.exists() {
        panic!("there is no {}: ARK_POLY_LIB names the folder of libark_poly.a", archive.display());
    }
    println!("cargo:rustc-link-search=native={}", folder.display());
    println!("cargo:rustc-link-lib=static=ark_poly");
    println!("cargo:rerun-if-changed={}", archive.display());
}
