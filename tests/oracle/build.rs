//! Finds the five Rust files and writes the modules that include them.

use std::path::{Path, PathBuf};
use std::{env, fs};

const FILES: [&str; 5] = [
    "basicop.rs",
    "linepack.rs",
    "qdec.rs",
    "spec_lsp.rs",
    "spec_tables.rs",
];

/// Writes qdec.rs with its child and the list of modules into the build directory.
fn main() {
    let manifest = PathBuf::from(env::var_os("CARGO_MANIFEST_DIR").unwrap());
    let out = PathBuf::from(env::var_os("OUT_DIR").unwrap());
    println!("cargo::rerun-if-env-changed=G7231_SRC");
    println!("cargo::rerun-if-changed=build.rs");
    let source = source_directory(&manifest);
    for file in FILES {
        println!("cargo::rerun-if-changed={}", source.join(file).display());
    }
    let qdec = out.join("qdec.rs");
    let driver = manifest.join("src/driver/mod.rs");
    write_with_child(&source.join("qdec.rs"), &qdec, &driver);
    fs::write(out.join("modules.rs"), modules(&source, &qdec)).unwrap();
}

/// The directory with the five files: G7231_SRC or its `src`; without it, the shared documents
/// beside the repository.
fn source_directory(manifest: &Path) -> PathBuf {
    let given = match env::var_os("G7231_SRC") {
        Some(path) if !path.is_empty() => manifest.join(path),
        _ => manifest.join("../../../shared/docs/src"),
    };
    let below = given.join("src");
    let found = if below.join("qdec.rs").is_file() {
        below
    } else {
        given
    };
    for file in FILES {
        if !found.join(file).is_file() {
            panic!(
                "{file} is not in {}: set G7231_SRC to the directory that holds the five Rust \
                 files, or to its parent",
                found.display()
            );
        }
    }
    found.canonicalize().unwrap()
}

/// Copies a file byte for byte and adds one line: a child module may call its parent's private
/// functions.
fn write_with_child(from: &Path, to: &Path, child: &Path) {
    let mut text = fs::read(from).unwrap();
    if text.last() != Some(&b'\n') {
        text.push(b'\n');
    }
    text.extend(format!("#[path = {child:?}] pub(crate) mod driver;\n").bytes());
    fs::write(to, text).unwrap();
}

/// The module declarations, and the files' bytes for `oracle sums`.
fn modules(source: &Path, qdec: &Path) -> String {
    let mut text = String::new();
    for file in FILES {
        let path = source.join(file);
        let included = if file == "qdec.rs" { qdec } else { &path };
        let name = file.trim_end_matches(".rs");
        text += &format!("#[allow(dead_code)]\n#[path = {included:?}]\nmod {name};\n");
    }
    text += "const SOURCES: [(&str, &[u8]); 5] = [\n";
    for file in FILES {
        text += &format!("({file:?}, include_bytes!({:?})),\n", source.join(file));
    }
    text + "];\n"
}
