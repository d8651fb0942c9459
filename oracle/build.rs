//! Takes serialize.rs and disjointsets.rs unchanged from the folder in ISLE_SRC (by default the
//! source documents beside the repository) into cargo's own build folder, and holds each copy
//! against its original byte for byte.

use std::path::{Path, PathBuf};
use std::{env, fs};

const TAKEN: [&str; 2] = ["serialize.rs", "disjointsets.rs"];
const DEFAULT_FOLDER: &str = "../../shared/docs/src/src";

fn main() {
    let originals = originals_folder();
    let build_folder = PathBuf::from(env::var_os("OUT_DIR").expect("cargo names a build folder"));
    let mut modules = String::new();
    for name in TAKEN {
        take(&originals.join(name), &build_folder.join(name));
        let module = name.trim_end_matches(".rs");
        modules += &format!("#[path = \"{name}\"]\n#[allow(dead_code)]\npub mod {module};\n");
    }
    fs::write(build_folder.join("originals.rs"), modules).expect("the build folder can be written");
    println!("cargo:rerun-if-env-changed=ISLE_SRC");
    println!("cargo:rerun-if-changed=build.rs");
}

/// The folder that holds the originals: the one named, or its `src`.
fn originals_folder() -> PathBuf {
    let named = env::var_os("ISLE_SRC").filter(|folder| !folder.is_empty());
    let folder = PathBuf::from(named.unwrap_or(DEFAULT_FOLDER.into()));
    [folder.clone(), folder.join("src")]
        .into_iter()
        .find(|place| TAKEN.iter().all(|name| place.join(name).is_file()))
        .unwrap_or_else(|| {
            panic!(
                "no serialize.rs and disjointsets.rs in {}",
                folder.display()
            )
        })
}

/// Copies one file and reads both back.
fn take(original: &Path, copy: &Path) {
    let bytes = fs::read(original).expect("the original can be read");
    fs::write(copy, &bytes).expect("the build folder can be written");
    assert!(fs::read(copy).unwrap() == bytes, "{} is no true copy", copy.display());
    println!("cargo:rerun-if-changed={}", original.display());
    println!("cargo:rerun-if-changed={}", copy.display());
}
