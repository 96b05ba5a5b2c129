//! Finds the static library that `tools/staticlib` writes.
//! Another folder may be named by the variable HOFADIJU_LIB_DIR.

use std::env;
use std::path::PathBuf;

fn main() {
    let here = PathBuf::from(env::var_os("CARGO_MANIFEST_DIR").expect("cargo names the crate's folder"));
    let folder = match env::var_os("HOFADIJU_LIB_DIR") {
        Some(named) => PathBuf::from(named),
        None => here.join("../target/staticlib"),
    };
    let archive = folder.join("libhofadiju.a");
    println!("cargo:rerun-if-env-changed=HOFADIJU_LIB_DIR");
    println!("cargo:rerun-if-changed={}", archive.display());
    if !archive.is_file() {
        eprintln!(
            "{} is missing: run `tools/staticlib` in the repository's top folder, or name the \
             folder that holds libhofadiju.a in HOFADIJU_LIB_DIR",
            archive.display()
        );
        std::process::exit(1);
    }
    println!("cargo:rustc-link-search=native={}", folder.display());
    println!("cargo:rustc-link-lib=static=hofadiju");
}
