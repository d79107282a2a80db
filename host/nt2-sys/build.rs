//! Links libnt2.a from NT2_LIB_DIR, or from target/staticlib of the repository.

use std::env;
use std::path::PathBuf;

fn main() {
    println!("cargo::rerun-if-changed=build.rs");
    println!("cargo::rerun-if-env-changed=NT2_LIB_DIR");
    if env::var_os("CARGO_FEATURE_LINK").is_none() {
        return;
    }
    let manifest = PathBuf::from(env::var_os("CARGO_MANIFEST_DIR").expect("set by cargo"));
    let folder = match env::var_os("NT2_LIB_DIR") {
        Some(folder) => PathBuf::from(folder),
        None => manifest.join("../../target/staticlib"),
    };
    let archive = folder.join("libnt2.a");
    let Ok(archive) = archive.canonicalize() else {
        println!(
            "cargo::error={} is missing: run `host/library`, or set NT2_LIB_DIR",
            archive.display()
        );
        return;
    };
    let folder = archive.parent().expect("a file has a folder");
    println!("cargo::rerun-if-changed={}", archive.display());
    println!("cargo::rustc-link-search=native={}", folder.display());
    println!("cargo::rustc-link-lib=static=nt2");
}
