//! Links the libraries of the proved code, which `libraries` makes and cargo does not.

use std::path::Path;

fn main() {
    let folder = Path::new(env!("CARGO_MANIFEST_DIR")).join("../target/staticlib");
    println!("cargo::rustc-link-search=native={}", folder.display());
    for name in ["checker", "evaluator"] {
        if !link(&folder, name) {
            println!(
                "cargo::error={} has no lib{name}.a: run `./libraries {name}` in the repository's root first",
                folder.display()
            );
        }
    }
    // Only what times and tests the reader alone needs this one.
    println!("cargo::rustc-check-cfg=cfg(reading_alone)");
    if link(&folder, "reading_alone") {
        println!("cargo::rustc-cfg=reading_alone");
    }
}

/// Whether the library is there.
fn link(folder: &Path, name: &str) -> bool {
    let library = folder.join(format!("lib{name}.a"));
    println!("cargo::rerun-if-changed={}", library.display());
    let there = library.is_file();
    if there {
        println!("cargo::rustc-link-lib=static={name}");
    }
    there
}
