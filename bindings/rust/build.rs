//! Finds the static library: in the directory that VIREO_LIB names, else where the repository makes it. A relative name
//! counts from the crate.
use std::{env, path::Path, process};

fn main() {
    println!("cargo:rerun-if-env-changed=VIREO_LIB");
    let root = env::var_os("CARGO_MANIFEST_DIR").expect("cargo names the crate's directory");
    let directory = env::var_os("VIREO_LIB").unwrap_or_else(|| "../../target/staticlib".into());
    let library = Path::new(&root).join(directory).join("libvireodesk.a");
    // Named even where it is missing, so that the build runs again once it is there.
    println!("cargo:rerun-if-changed={}", library.display());
    let Ok(library) = library.canonicalize() else {
        eprintln!("{} is missing.", library.display());
        eprintln!("Run `bindings/library vireodesk` at the root of the repository,");
        eprintln!("or set VIREO_LIB to the directory that has libvireodesk.a.");
        process::exit(1);
    };
    println!("cargo:rustc-link-search=native={}", library.parent().expect("a file lies in a directory").display());
    println!("cargo:rustc-link-lib=static=vireodesk");
}
