//! Links the static library of `sched`, the file that NEAKSPUOY_LIB names, with the feature of that name.

use std::path::PathBuf;

fn main() {
    println!("cargo::rerun-if-env-changed=NEAKSPUOY_LIB");
    if std::env::var_os("CARGO_FEATURE_SCHED").is_some() {
        let file =
            PathBuf::from(std::env::var_os("NEAKSPUOY_LIB").expect("NEAKSPUOY_LIB must name the static library"));
        let (folder, name) = (file.parent().expect("in a folder"), file.file_name().expect("a file"));
        println!("cargo::rerun-if-changed={}", file.display());
        println!("cargo::rustc-link-search=native={}", folder.display());
        println!("cargo::rustc-link-lib=static:+verbatim={}", name.display());
    }
}
