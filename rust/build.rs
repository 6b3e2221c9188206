//! Tells cargo where the static libraries are: the folder that
//! NDAKOLEEM_LIB names, or the one in which `./run libraries` leaves them.

use std::path::PathBuf;

fn main() {
    println!("cargo:rerun-if-env-changed=NDAKOLEEM_LIB");
    let beside = || PathBuf::from(env!("CARGO_MANIFEST_DIR")).join("../target/staticlib");
    let folder = std::env::var_os("NDAKOLEEM_LIB").map_or_else(beside, PathBuf::from);
    for name in ["ndakoleem", "ndakoleem_map", "ndakoleem_replay"] {
        let library = folder.join(format!("lib{name}.a"));
        if !library.exists() {
            panic!("{} is not there: `./run libraries` writes it", library.display());
        }
        println!("cargo:rerun-if-changed={}", library.display());
    }
    println!("cargo:rustc-link-search=native={}", folder.display());
}
