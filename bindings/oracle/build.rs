//! Writes, for the crate that is being built, the modules that are the original's own files.
use std::path::{Path, PathBuf};
use std::{env, fs};

/// The crate, the file of modules, and the originals in it.
const MODULES: [(&str, &str, &[&str]); 5] = [
    ("isa", "root", &["triton-isa/src/instruction.rs"]),
    (
        "air",
        "root",
        &["triton-air/src/challenge_id.rs", "triton-air/src/cross_table_argument.rs", "triton-air/src/table_column.rs"],
    ),
    ("air", "table", &["triton-air/src/table/processor.rs"]),
    ("oracle", "root", &["triton-vm/src/challenges.rs", "triton-vm/src/ndarray_helper.rs"]),
    ("oracle", "table", &["triton-vm/src/table/processor.rs", "triton-vm/src/table/running_arguments.rs"]),
];

/// The folder that holds the originals, seen from the repository's top.
fn originals() -> PathBuf {
    let folder = env::var("TEALBOBBIN_RUST_SRC").unwrap_or("../shared/docs/src".to_string());
    let here = PathBuf::from(env::var("CARGO_MANIFEST_DIR").unwrap());
    let top = here.ancestors().find(|folder| folder.join("crates.txt").is_file());
    top.expect("the repository's top").join(folder)
}

fn main() {
    println!("cargo:rerun-if-env-changed=TEALBOBBIN_RUST_SRC");
    let folder = originals();
    let name = env::var("CARGO_PKG_NAME").unwrap();
    let out = PathBuf::from(env::var("OUT_DIR").unwrap());
    for (_, file, originals) in MODULES.iter().filter(|(owner, _, _)| *owner == name) {
        let modules: String = originals.iter().map(|original| module(&folder.join(original))).collect();
        fs::write(out.join(file).with_extension("rs"), modules).unwrap();
    }
}

fn module(original: &Path) -> String {
    let path = fs::canonicalize(original).unwrap_or_else(|_| panic!("no {}: set TEALBOBBIN_RUST_SRC", original.display()));
    println!("cargo:rerun-if-changed={}", path.display());
    format!("#[path = {path:?}]\npub mod {};\n", path.file_stem().unwrap().to_str().unwrap())
}
