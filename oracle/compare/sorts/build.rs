//! Links the proved sorts layer, which `tools/build.sh sort_entries` writes.

use std::path::Path;
use std::process::exit;

fn main() {
    let folder = Path::new(env!("CARGO_MANIFEST_DIR")).join("../../../target/staticlib");
    let library = folder.join("libsort_entries.a");
    println!("cargo:rerun-if-changed={}", library.display());
    if !library.exists() {
        eprintln!("target/staticlib/libsort_entries.a is not there.");
        eprintln!("Run `tools/build.sh sort_entries` at the root of the repository first (about 3 minutes).");
        exit(1);
    }
    println!("cargo:rustc-link-search=native={}", folder.display());
    println!("cargo:rustc-link-lib=static=sort_entries");
}
