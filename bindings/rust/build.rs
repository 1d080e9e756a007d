//! Links the proved static library, which `make library` writes below target/.

use std::env;
use std::path::Path;
use std::process::exit;

fn main() {
    let manifest = env::var("CARGO_MANIFEST_DIR").expect("cargo names the crate's folder");
    let folder = Path::new(&manifest).join("../../target/staticlib");
    let archive = folder.join("libods1.a");
    println!("cargo:rerun-if-changed=build.rs");
    println!("cargo:rerun-if-changed={}", archive.display());
    if !archive.is_file() {
        eprintln!(
            "target/staticlib/libods1.a is missing: run make library \
             at the root of the repository"
        );
        exit(1);
    }
    println!("cargo:rustc-link-search=native={}", folder.display());
    println!("cargo:rustc-link-lib=static=ods1");
}
