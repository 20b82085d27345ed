//! Links the proved library that `rt lib` in crates/wistorvan writes:
//! libwistorvan.a in the folder that WISTORVAN_LIB_DIR names, or else in
//! crates/wistorvan/out of this repository.

use std::env;
use std::path::{absolute, Path, PathBuf};

const LIB_DIR: &str = "WISTORVAN_LIB_DIR";

/// The folder of the library; a relative name starts at this crate's folder.
fn library_folder() -> PathBuf {
    let built = Path::new(env!("CARGO_MANIFEST_DIR")).with_file_name("crates/wistorvan/out");
    let named = env::var_os(LIB_DIR).filter(|name| !name.is_empty());
    let folder = named.map_or(built, PathBuf::from);
    absolute(&folder).unwrap_or(folder)
}

fn main() {
    let folder = library_folder();
    let library = folder.join("libwistorvan.a");
    println!("cargo::rerun-if-env-changed={LIB_DIR}");
    println!("cargo::rerun-if-changed={}", library.display());
    if !library.is_file() {
        println!(
            "cargo::error={} is not there: run `rt lib` in crates/wistorvan of the repository, \
             or set {LIB_DIR} to the folder that has libwistorvan.a",
            library.display()
        );
        return;
    }
    println!("cargo::rustc-link-search=native={}", folder.display());
    println!("cargo::rustc-link-lib=static=wistorvan");
}
