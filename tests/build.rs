//! Links the product's static library, and that of watch_timing, which the benchmark calls.
//! TULLWETH_LIB names another folder to take both from, for tries by hand: the gate unsets it.

use std::env;
use std::path::PathBuf;

/// The libraries, each with what makes it in the root of the repository.
const LIBRARIES: [(&str, &str); 2] = [
    ("tullweth", "make"),
    ("watch_timing", "bash .ci/watch_timing"),
];

fn main() {
    let usual = PathBuf::from(env!("CARGO_MANIFEST_DIR")).join("../target/staticlib");
    let folder = env::var_os("TULLWETH_LIB").map_or(usual, PathBuf::from);
    println!("cargo:rerun-if-env-changed=TULLWETH_LIB");
    println!("cargo:rustc-link-search=native={}", folder.display());
    for (name, command) in LIBRARIES {
        let library = folder.join(format!("lib{name}.a"));
        assert!(
            library.exists(),
            "{} is missing: run `{command}` in the root of the repository first",
            library.display()
        );
        println!("cargo:rerun-if-changed={}", library.display());
        println!("cargo:rustc-link-lib=static={name}");
    }
}
