//! Links the static library that `tools/library.sh` writes, or the one that NEAKSPUOY_LIB names.

use std::path::PathBuf;

fn main() {
    let default = PathBuf::from(env!("CARGO_MANIFEST_DIR")).join("../../target/staticlib/libsched.a");
    let file = std::env::var_os("NEAKSPUOY_LIB").map_or(default, PathBuf::from);
    println!("cargo::rerun-if-env-changed=NEAKSPUOY_LIB");
    println!("cargo::rerun-if-changed={}", file.display());
    let folder = file.parent().expect("a folder");
    println!("cargo::rustc-link-search=native={}", folder.display());
    println!("cargo::rustc-link-lib=static=sched");
}
