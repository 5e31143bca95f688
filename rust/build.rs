//! Links libmuntinorris.a: from the directory that MUNTINORRIS_LIB names, else from ../crates/muntinorris/out,
//! where `rt lib` puts it.
use std::env;
use std::path::PathBuf;

fn main() {
    println!("cargo:rerun-if-env-changed=MUNTINORRIS_LIB");
    let directory = match env::var_os("MUNTINORRIS_LIB") {
        Some(given) => PathBuf::from(given),
        None => {
            let package = env::var_os("CARGO_MANIFEST_DIR").expect("cargo sets it");
            PathBuf::from(package).join("../crates/muntinorris/out")
        }
    };
    let archive = directory.join("libmuntinorris.a");
    if !archive.exists() {
        panic!("no {}: run `rt lib` in crates/muntinorris first, or set MUNTINORRIS_LIB", archive.display());
    }
    println!("cargo:rerun-if-changed={}", archive.display());
    println!("cargo:rustc-link-search=native={}", directory.display());
    println!("cargo:rustc-link-lib=static=muntinorris");
}
