//! Links the proved library, `libc_api.a`, from the folder that SIKALUMDO_LIB_DIR names, or else from the folder where
//! the repository compiles it for this machine.

use std::env;
use std::path::PathBuf;

fn main() {
    println!("cargo:rerun-if-env-changed=SIKALUMDO_LIB_DIR");
    let crate_folder = PathBuf::from(env::var_os("CARGO_MANIFEST_DIR").expect("cargo names the crate's folder"));
    let folder = match env::var_os("SIKALUMDO_LIB_DIR") {
        Some(folder) => PathBuf::from(folder),
        None => crate_folder.join("../../target/host"),
    };
    let library = folder.join("libc_api.a");
    if !library.is_file() {
        panic!("no libc_api.a in {}: compile it, or set SIKALUMDO_LIB_DIR to its folder", folder.display());
    }
    // The archive becomes part of this crate, so a newer one has to be taken in again.
    println!("cargo:rerun-if-changed={}", library.display());
    println!("cargo:rustc-link-search=native={}", folder.display());
    println!("cargo:rustc-link-lib=static=c_api");
}
