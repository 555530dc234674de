//! Links the proved solver, whose entries `tools/build.sh solve_entries` and `tools/build.sh solve_records` write, unless the
//! stand-in is asked.

use std::env;
use std::path::Path;
use std::process::exit;

fn main() {
    println!("cargo:rerun-if-changed=build.rs");
    if env::var_os("CARGO_FEATURE_STAND_IN").is_some() {
        return;
    }
    let folder = Path::new(env!("CARGO_MANIFEST_DIR")).join("../../../target/staticlib");
    println!("cargo:rustc-link-search=native={}", folder.display());
    for name in ["solve_entries", "solve_records"] {
        let library = folder.join(format!("lib{name}.a"));
        println!("cargo:rerun-if-changed={}", library.display());
        if !library.exists() {
            eprintln!("target/staticlib/lib{name}.a is not there.");
            eprintln!(
                "Run `tools/build.sh {name}` at the root of the repository first, or give `--features stand-in`."
            );
            exit(1);
        }
        println!("cargo:rustc-link-lib=static={name}");
    }
}
