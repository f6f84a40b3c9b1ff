//! Links libgaroalva.a from the directory GAROALVA_LIB, or from the repository's build/, if the feature `live` is on.

use std::env;
use std::path::Path;

fn main() {
    println!("cargo:rerun-if-env-changed=GAROALVA_LIB");
    if env::var_os("CARGO_FEATURE_LIVE").is_none() {
        return;
    }
    let folder = env::var("GAROALVA_LIB").unwrap_or_else(|_| "../../build".to_string());
    let folder = Path::new(&folder).canonicalize().unwrap_or_else(|error| panic!("GAROALVA_LIB, {folder}: {error}"));
    println!("cargo:rerun-if-changed={}", folder.join("libgaroalva.a").display());
    println!("cargo:rustc-link-search=native={}", folder.display());
    println!("cargo:rustc-link-lib=static=garoalva");
}
