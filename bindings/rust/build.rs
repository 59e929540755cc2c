//! Says where `libpbcube.a` lies: in the folder that `PBCUBE_LIB_DIR` names, from this crate's folder on where it is a relative
//! path, or where `bindings/c/build` puts it.

use std::env;
use std::path::PathBuf;

fn main() {
    println!("cargo:rerun-if-env-changed=PBCUBE_LIB_DIR");
    let here = PathBuf::from(env::var_os("CARGO_MANIFEST_DIR").unwrap_or_default());
    let folder = here.join(env::var_os("PBCUBE_LIB_DIR").unwrap_or_else(|| "../c/out".into()));
    let library = folder.join("libpbcube.a");
    if !library.exists() {
        println!("cargo:warning=no {}: bindings/c/build makes it, and PBCUBE_LIB_DIR names another folder", library.display());
    }
    println!("cargo:rerun-if-changed={}", library.display());
    println!("cargo:rustc-link-search=native={}", folder.display());
    println!("cargo:rustc-link-lib=static=pbcube");
}
