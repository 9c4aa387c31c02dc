//! Links libraft_log.a, which `rt lib` in crates/raft_log writes to its out/: from the folder that RAFT_LOG_LIB names, or the repository's
//! target/staticlib, where the scripts of compare/ put it.
use std::path::PathBuf;

fn main() {
    println!("cargo:rerun-if-env-changed=RAFT_LOG_LIB");
    let here = PathBuf::from(std::env::var("CARGO_MANIFEST_DIR").unwrap());
    let folder = std::env::var("RAFT_LOG_LIB").map_or(here.join("../../target/staticlib"), PathBuf::from);
    let library = folder.join("libraft_log.a");
    println!("cargo:rerun-if-changed={}", library.display());
    if !library.exists() {
        println!("cargo:warning=libraft_log.a is missing: run `rt lib` in crates/raft_log of the repository, and set RAFT_LOG_LIB to its out folder");
    }
    println!("cargo:rustc-link-search=native={}", folder.display());
    println!("cargo:rustc-link-lib=static=raft_log");
}
