//! Finds liblapped.a and has it linked.

use std::path::{Path, PathBuf};
use std::{env, process};

fn main() {
    println!("cargo:rerun-if-env-changed=LAPPED_LIB_DIR");
    let folder = match env::var_os("LAPPED_LIB_DIR") {
        Some(folder) => PathBuf::from(folder),
        None => Path::new(env!("CARGO_MANIFEST_DIR")).join("../../target/staticlib"),
    };
    let library = folder.join("liblapped.a");
    println!("cargo:rerun-if-changed={}", library.display());
    if !library.is_file() {
        eprintln!(
            "error: {} is not there.\n\
             Run `bin/build library` at the root of the repository, which proves the library and \
             writes it,\nor set LAPPED_LIB_DIR to the absolute path of the folder that holds \
             liblapped.a.",
            library.display()
        );
        process::exit(1);
    }
    let folder = folder.canonicalize().expect("the folder of a file that is there");
    println!("cargo:rustc-link-search=native={}", folder.display());
    println!("cargo:rustc-link-lib=static=lapped");
    // The test of the C example links the same archive.
    println!("cargo:rustc-env=LAPPED_LIB_DIR={}", folder.display());
}
