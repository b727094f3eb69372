//! Links the proved desk and the proved counter, the static libraries that `bin/staticlib` builds.

use std::env;
use std::path::PathBuf;

fn main() {
    let home = PathBuf::from(env::var("CARGO_MANIFEST_DIR").expect("cargo sets it"));
    let folder = home.join("../target/staticlib");
    println!("cargo::rustc-link-search=native={}", folder.display());
    for name in ["desk", "counter"] {
        let archive = folder.join(format!("lib{name}.a"));
        println!("cargo::rerun-if-changed={}", archive.display());
        if !archive.exists() {
            println!(
                "cargo::error=the proved {name} is not there: run `bin/staticlib` at the root of the \
                 repository, which writes {}",
                archive.display()
            );
        }
        println!("cargo::rustc-link-lib=static={name}");
    }
}
