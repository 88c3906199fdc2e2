//! With the feature `proved`, tells the linker where the static libraries of the proved calls are:
//! `KHAONUAT_LIB`, or each crate's own out/.

use std::{env, path::PathBuf};

fn main() {
    println!("cargo:rerun-if-env-changed=KHAONUAT_LIB");
    if env::var_os("CARGO_FEATURE_PROVED").is_none() {
        return;
    }
    let crates = PathBuf::from(env::var_os("CARGO_MANIFEST_DIR").expect("cargo sets it")).join("../crates");
    for library in ["capi_validate", "capi_advance", "capi_run", "capi_script"] {
        let folder = match env::var_os("KHAONUAT_LIB") {
            Some(folder) => PathBuf::from(folder),
            None => crates.join(library).join("out"),
        };
        println!("cargo:rustc-link-search=native={}", folder.display());
        println!("cargo:rerun-if-changed={}", folder.join(format!("lib{library}.a")).display());
        println!("cargo:rustc-link-lib=static={library}");
    }
}
