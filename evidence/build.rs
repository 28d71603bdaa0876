//! Links the proved library's C face, for the feature `face` alone.

use std::path::Path;

fn main() {
    println!("cargo::rerun-if-changed=build.rs");
    if std::env::var_os("CARGO_FEATURE_FACE").is_none() {
        return;
    }
    let folder = Path::new(env!("CARGO_MANIFEST_DIR")).join("../crates/survey_c/out");
    println!("cargo::rustc-link-search=native={}", folder.display());
    link(&folder, "survey_c");
}

fn link(folder: &Path, name: &str) {
    let archive = folder.join(format!("lib{name}.a"));
    println!("cargo::rerun-if-changed={}", archive.display());
    if !archive.exists() {
        println!(
            "cargo::error={} is missing: make it by `rt lib` in the folder crates/{name}",
            archive.display()
        );
        return;
    }
    println!("cargo::rustc-link-lib=static={name}");
}
