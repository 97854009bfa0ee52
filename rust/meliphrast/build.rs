//! Links the proved library, which is made first where it is missing or older than its sources.

use std::env;
use std::fs;
use std::path::{Path, PathBuf};
use std::process::Command;

/// The library's name.
const LIBRARY: &str = "meliphrast";

/// A folder that holds the library already, in place of the repository's own.
const FOLDER_VARIABLE: &str = "MELIPHRAST_LIB_DIR";

/// What makes the repository's own where that is called for, and the folder that it is then in.
const MAKER: &str = ".ci/library";
const FOLDER: &str = "target/library";

fn main() {
    println!("cargo:rerun-if-env-changed={FOLDER_VARIABLE}");
    println!("cargo:rerun-if-changed=build.rs");
    let system = built_for("OS");
    assert_eq!(system, "linux", "the proved library is code for Linux");
    let folder = match env::var_os(FOLDER_VARIABLE) {
        Some(folder) => found(Path::new(&folder)),
        None => made_here(),
    };
    let archive = folder.join(format!("lib{LIBRARY}.a"));
    println!("cargo:rerun-if-changed={}", archive.display());
    assert!(
        archive.is_file(),
        "there is no {}: {FOLDER_VARIABLE}, where it is set, names the library's folder",
        archive.display()
    );
    println!("cargo:rustc-link-search=native={}", folder.display());
    println!("cargo:rustc-link-lib=static={LIBRARY}");
    // For the test of the C header, which links the same archive.
    println!("cargo:rustc-env=MELIPHRAST_ARCHIVE={}", archive.display());
}

/// What cargo says of the machine that it builds for.
fn built_for(what: &str) -> String {
    env::var(format!("CARGO_CFG_TARGET_{what}")).expect("cargo says what it builds for")
}

/// The folder that was named, as it is to be called from another one.
fn found(folder: &Path) -> PathBuf {
    match folder.canonicalize() {
        Ok(folder) => folder,
        Err(error) => panic!("{FOLDER_VARIABLE}: {}: {error}", folder.display()),
    }
}

/// The folder of the repository's own archive, which is then in step with its sources.
fn made_here() -> PathBuf {
    let processor = built_for("ARCH");
    assert_eq!(
        processor, "x86_64",
        "the proved library is x86-64 code; where the toolchain brings an emulator, `.ci/cargo` tests on another processor"
    );
    let package = env::var("CARGO_MANIFEST_DIR").expect("cargo says where the package is");
    let root = Path::new(&package).join("../..");
    let root = root.canonicalize().expect("the repository has a root");
    for source in ["crates.txt", MAKER] {
        println!("cargo:rerun-if-changed={}", root.join(source).display());
    }
    // The sources of each crate, and not what rt makes beside them.
    let crates = fs::read_dir(root.join("crates")).expect("the repository has crates");
    for entry in crates {
        let entry = entry.expect("a crate's folder can be named");
        for part in ["src", "specs", "proofs"] {
            let part = entry.path().join(part);
            if part.is_dir() {
                println!("cargo:rerun-if-changed={}", part.display());
            }
        }
    }
    match Command::new(root.join(MAKER)).status() {
        Ok(status) if status.success() => root.join(FOLDER),
        Ok(status) => panic!("`{MAKER}` at the repository's root: {status}"),
        Err(error) => panic!("`{MAKER}` at the repository's root: {error}"),
    }
}
