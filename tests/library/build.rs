//! Links the static libraries that the repository builds.

use std::env;
use std::path::Path;

fn main() {
    let folder = Path::new(env!("CARGO_MANIFEST_DIR")).join("../../target/staticlib");
    println!("cargo:rustc-link-search=native={}", folder.display());
    let mut names = vec!["waldumre"];
    if env::var_os("CARGO_FEATURE_BOOK").is_some() {
        names.push("waldumre_book");
    }
    for name in names {
        let archive = folder.join(format!("lib{name}.a"));
        assert!(archive.exists(), "no lib{name}.a: run tests/run.sh");
        println!("cargo:rustc-link-lib=static={name}");
        println!("cargo:rerun-if-changed={}", archive.display());
    }
}
