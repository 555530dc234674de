//! Links the proved solver, which `tools/build.sh solve_records` writes. Another folder can be named by JULQETAI_LIB_DIR.

use std::env;
use std::path::PathBuf;
use std::process::exit;

fn main() {
    println!("cargo:rerun-if-changed=build.rs");
    println!("cargo:rerun-if-env-changed=JULQETAI_LIB_DIR");
    let folder = match env::var_os("JULQETAI_LIB_DIR") {
        Some(folder) => PathBuf::from(folder),
        None => PathBuf::from(env!("CARGO_MANIFEST_DIR")).join("../target/staticlib"),
    };
    let folder = folder.canonicalize().unwrap_or(folder);
    let library = folder.join("libsolve_records.a");
    println!("cargo:rerun-if-changed={}", library.display());
    if !library.exists() {
        eprintln!(
            "The proved library {} is not there: run `tools/build.sh solve_records` at the root of the repository, \
             or name the folder that has libsolve_records.a in JULQETAI_LIB_DIR.",
            library.display()
        );
        exit(1);
    }
    println!("cargo:rustc-link-search=native={}", folder.display());
    println!("cargo:rustc-link-lib=static=solve_records");
}
