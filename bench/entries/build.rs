//! Compiles the plain C loop. The library itself is found and linked by bindings/rust.

use std::{env, path::Path, process::Command};

fn main() {
    let file = "src/plain.c";
    println!("cargo:rerun-if-changed={file}");
    let out = env::var("OUT_DIR").expect("OUT_DIR");
    let (object, library) = (Path::new(&out).join("plain.o"), Path::new(&out).join("libplain.a"));
    run(Command::new("gcc").args(["-O2", "-Wall", "-Wextra", "-fPIC", "-c", file, "-o"]).arg(&object));
    run(Command::new("ar").arg("crs").arg(&library).arg(&object));
    println!("cargo:rustc-link-search=native={out}");
    println!("cargo:rustc-link-lib=static=plain");
}

fn run(command: &mut Command) {
    let status = command.status().unwrap_or_else(|e| panic!("{command:?}: {e}"));
    assert!(status.success(), "{command:?} failed");
}
