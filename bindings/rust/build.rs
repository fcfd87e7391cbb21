//! Links libwalk_c.a from the folder that WALKPRINT_LIB names (tools/library
//! builds it and prints its folder), or else from the repository's
//! crates/walk_c/out, where `rt lib` writes it.

use std::env;
use std::path::PathBuf;

fn main() {
    println!("cargo:rerun-if-env-changed=WALKPRINT_LIB");
    let folder = env::var_os("WALKPRINT_LIB").map_or_else(
        || PathBuf::from(env!("CARGO_MANIFEST_DIR")).join("../../crates/walk_c/out"),
        PathBuf::from,
    );
    let library = folder.join("libwalk_c.a");
    println!("cargo:rerun-if-changed={}", library.display());
    if !library.is_file() {
        panic!("{} is not there: run tools/library and name the folder that it prints in WALKPRINT_LIB", library.display());
    }
    println!("cargo:rustc-link-search=native={}", folder.display());
    println!("cargo:rustc-link-lib=static=walk_c");
}
