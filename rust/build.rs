//! Links libopenrules_c.a, from the folder or file that OPENRULES_LIB names, else from the place where `scripts/build.sh library` puts it.

use std::env;
use std::path::PathBuf;

fn main() {
    println!("cargo:rerun-if-changed=build.rs");
    println!("cargo:rerun-if-env-changed=OPENRULES_LIB");
    let here = PathBuf::from(env::var("CARGO_MANIFEST_DIR").unwrap());
    let place = env::var("OPENRULES_LIB").map(PathBuf::from).unwrap_or(here.join("../target/staticlib"));
    let folder = if place.is_file() { place.parent().unwrap().to_path_buf() } else { place };
    let library = folder.join("libopenrules_c.a");
    if !library.is_file() {
        panic!(
            "libopenrules_c.a is not in {}: run `scripts/build.sh library` in the repository, or set OPENRULES_LIB.",
            folder.display()
        );
    }
    println!("cargo:rerun-if-changed={}", library.display());
    println!("cargo:rustc-link-search=native={}", folder.display());
    println!("cargo:rustc-link-lib=static=openrules_c");
}
