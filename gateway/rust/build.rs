//! Finds the proved library of a package, the one that it links: in WATERBOOK_LIB_DIR, or where help/library.sh writes it.

use std::env;
use std::path::PathBuf;

fn main() {
    println!("cargo::rerun-if-env-changed=WATERBOOK_LIB_DIR");
    let folder = match env::var_os("WATERBOOK_LIB_DIR") {
        Some(folder) => PathBuf::from(folder),
        None => PathBuf::from(env!("CARGO_MANIFEST_DIR")).join("../../target/staticlib"),
    };
    let name = env::var("CARGO_MANIFEST_LINKS").unwrap_or_default();
    let library = folder.join(format!("lib{name}.a"));
    println!("cargo::rerun-if-changed={}", library.display());
    println!("cargo::rustc-link-search=native={}", folder.display());
    if !folder.is_absolute() || !library.is_file() {
        println!("cargo::error=there is no {}", library.display());
        println!(
            "cargo::error=prove and write it: `help/library.sh {name}` at the top of the water book"
        );
        println!("cargo::error=or set WATERBOOK_LIB_DIR to its folder, a path from the root");
    }
}
