//! Links the proved library's static archive, libmuntinorris.a. `MUNTINORRIS_LIB` is the folder that it is in; without
//! it, that of the repository's own build is taken.

use std::env;
use std::path::{Path, PathBuf};

const VARIABLE: &str = "MUNTINORRIS_LIB";
const DEFAULT: &str = "../../crates/muntinorris/out";

fn main() {
    println!("cargo:rerun-if-env-changed={VARIABLE}");
    let package = env::var("CARGO_MANIFEST_DIR").expect("cargo says where the package is");
    let folder = match env::var_os(VARIABLE) {
        Some(folder) => PathBuf::from(folder),
        None => Path::new(&package).join(DEFAULT),
    };
    let archive = folder.join("libmuntinorris.a");
    assert!(
        archive.is_file(),
        "no archive at {}: build it with `rt lib` in crates/muntinorris, or set {VARIABLE}",
        archive.display()
    );
    println!("cargo:rerun-if-changed={}", archive.display());
    println!("cargo:rustc-link-search=native={}", folder.display());
    println!("cargo:rustc-link-lib=static:-bundle=muntinorris");
}
