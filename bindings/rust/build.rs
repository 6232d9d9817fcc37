//! Links the static library: that of the folder that `TEALBOBBIN_LIB` names, or the one that `scripts/library` writes.

use std::env;
use std::path::PathBuf;

fn main() {
    let here = PathBuf::from(env::var_os("CARGO_MANIFEST_DIR").expect("cargo names the folder"));
    let top = here.ancestors().nth(2).expect("the repository's top");
    let folder = top.join(env::var_os("TEALBOBBIN_LIB").unwrap_or("target/staticlib".into()));
    let library = folder.join("libtealbobbin.a");
    println!("cargo::rerun-if-env-changed=TEALBOBBIN_LIB");
    println!("cargo::rerun-if-changed={}", library.display());
    // a warning, since cargo check and cargo doc do without it; rustc fails where it is to be linked
    if !library.is_file() {
        println!(
            "cargo::warning=there is no {}: run `scripts/library` in {}, or let TEALBOBBIN_LIB name the library's folder",
            library.display(),
            top.display()
        );
    }
    println!("cargo::rustc-link-search=native={}", folder.display());
    println!("cargo::rustc-link-lib=static=tealbobbin");
}
