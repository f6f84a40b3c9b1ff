//! Links libgaroalva.a from the directory GAROALVA_LIB, or from the repository's build/ if that is not set.

use std::env;
use std::path::PathBuf;

fn main() {
    println!("cargo::rerun-if-env-changed=GAROALVA_LIB");
    let directory = match env::var_os("GAROALVA_LIB") {
        Some(directory) => PathBuf::from(directory),
        None => PathBuf::from(env!("CARGO_MANIFEST_DIR")).join("../build"),
    };
    let library = directory.join("libgaroalva.a");
    if library.is_file() {
        println!("cargo::rerun-if-changed={}", library.display());
        println!("cargo::rustc-link-search=native={}", directory.display());
        println!("cargo::rustc-link-lib=static=garoalva");
    } else {
        println!(
            "cargo::error={} is missing: run `make` in Garoalva's repository, or set GAROALVA_LIB to the absolute path \
             of the directory that holds libgaroalva.a",
            library.display()
        );
    }
}
