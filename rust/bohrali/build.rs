//! Links the archive that `make proved` builds, or the one in the folder that `BOHRALI_LIB_DIR`
//! names.

use std::env;

fn main() {
    let written = concat!(env!("CARGO_MANIFEST_DIR"), "/../../target/staticlib");
    let folder = env::var("BOHRALI_LIB_DIR").unwrap_or_else(|_| written.into());
    println!("cargo:rerun-if-env-changed=BOHRALI_LIB_DIR");
    println!("cargo:rerun-if-changed={folder}/libbohrali.a");
    println!("cargo:rustc-link-search=native={folder}");
    println!("cargo:rustc-link-lib=static=bohrali");
}
