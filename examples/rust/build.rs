//! Tells the linker in which folder libshelf.a is: the one that YERBAGUNT_LIB names, or else the one where `tools/build shelf` writes it.
use std::{env, path::Path, process};

fn main() {
    println!("cargo:rerun-if-env-changed=YERBAGUNT_LIB");
    let package = env::var("CARGO_MANIFEST_DIR").expect("cargo names the package's folder");
    let folder = env::var_os("YERBAGUNT_LIB").unwrap_or("../../target/staticlib".into());
    let folder = Path::new(&package).join(folder);
    let archive = folder.join("libshelf.a");
    println!("cargo:rerun-if-changed={}", archive.display());
    if !archive.is_file() {
        eprintln!("no {}: let YERBAGUNT_LIB name the folder of a release, or run `tools/build shelf`", archive.display());
        process::exit(1);
    }
    let target = env::var("CARGO_CFG_TARGET_ARCH").expect("cargo names the target");
    if target != "x86_64" {
        println!("cargo:warning=libshelf.a is for x86-64: for {target} this program can be checked, and not linked");
    }
    println!("cargo:rustc-link-search=native={}", folder.display());
}
