//! Links the proved library.

use std::env;
use std::path::Path;

fn main() {
    let package = env::var("CARGO_MANIFEST_DIR").expect("cargo sets it");
    let folder = Path::new(&package).join("../target/staticlib");
    let library = folder.join("libbrimusket.a");
    println!("cargo:rerun-if-changed=build.rs");
    println!("cargo:rerun-if-changed={}", library.display());
    let place = library.display();
    assert!(
        library.is_file(),
        "no library at {place}: make it with 'bin/library' or call bin/brimusket"
    );
    println!("cargo:rustc-link-search=native={}", folder.display());
    println!("cargo:rustc-link-lib=static=brimusket");
}
