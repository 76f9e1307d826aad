//! Finds the static library of the planner and links it.
//!
//! The library is `libuldhvamm.a` in the folder that the environment variable `ULDHVAMM_LIB` names, else in `../target/staticlib`.

use std::env;
use std::path::PathBuf;
use std::process::exit;

fn main() {
    println!("cargo:rerun-if-env-changed=ULDHVAMM_LIB");
    let folder = library_folder();
    let library = folder.join("libuldhvamm.a");
    println!("cargo:rerun-if-changed={}", library.display());
    if !library.is_file() {
        eprintln!(
            "{} is missing. The command `./build library`, run in the repository's root, builds it.",
            library.display()
        );
        exit(1);
    }
    println!("cargo:rustc-link-search=native={}", folder.display());
    println!("cargo:rustc-link-lib=static=uldhvamm");
}

/// The folder that holds the library.
fn library_folder() -> PathBuf {
    match env::var_os("ULDHVAMM_LIB") {
        Some(folder) => PathBuf::from(folder),
        None => manifest_folder()
            .join("..")
            .join("target")
            .join("staticlib"),
    }
}

/// The folder of this crate, which cargo names to a build script.
fn manifest_folder() -> PathBuf {
    PathBuf::from(env::var_os("CARGO_MANIFEST_DIR").expect("cargo sets CARGO_MANIFEST_DIR"))
}
