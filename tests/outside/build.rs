//! Links the proved library: `WICKERBELL_LIB` names the folder of libhost.a, else it is the repository's crates/host/out.

use std::path::PathBuf;

fn main() {
    let usual = PathBuf::from(env!("CARGO_MANIFEST_DIR")).join("../../crates/host/out");
    let folder = std::env::var_os("WICKERBELL_LIB").map_or(usual, PathBuf::from);
    println!("cargo:rerun-if-env-changed=WICKERBELL_LIB");
    println!("cargo:rerun-if-changed={}", folder.join("libhost.a").display());
    println!("cargo:rustc-link-search=native={}", folder.display());
    println!("cargo:rustc-link-lib=static=host");
}
