//! Links the proved unifier, which `tools/build.sh unify_entries` writes, unless the stand-in is asked.

use std::env;
use std::path::Path;
use std::process::exit;

fn main() {
    println!("cargo:rerun-if-changed=build.rs");
    if env::var_os("CARGO_FEATURE_STAND_IN").is_some() {
        return;
    }
    let folder = Path::new(env!("CARGO_MANIFEST_DIR")).join("../../../target/staticlib");
    let library = folder.join("libunify_entries.a");
    println!("cargo:rerun-if-changed={}", library.display());
    if !library.exists() {
        eprintln!("target/staticlib/libunify_entries.a is not there.");
        eprintln!(
            "Run `tools/build.sh unify_entries` at the root of the repository first, or give `--features stand-in`."
        );
        exit(1);
    }
    println!("cargo:rustc-link-search=native={}", folder.display());
    println!("cargo:rustc-link-lib=static=unify_entries");
}
