//! Makes the Rust source of wgsl-types 0.6.0 part of this crate without copying it into the
//! repository, and compiles the one C function that rounds by gcc's `_Float16`.
//!
//! Two files of the source are cut, both by text markers; the build stops where the text is not
//! as expected. Every other file is compiled where it lies, unchanged.

use std::{
    env, fs,
    path::{Path, PathBuf},
    process::Command,
};

/// Modules at the root of the crate, with their visibility as in the source's lib.rs.
const MODULES: [(&str, &str); 6] =
    [("", "error"), ("pub ", "conv"), ("pub ", "inst"), ("pub ", "syntax"), ("pub ", "tplt"), ("pub ", "ty")];

/// What stands at the head of the cut builtin/mod.rs: the part of its own imports and
/// re-exports that `call_ctor` needs.
const BUILTIN_HEAD: &str = "\
pub use ctor::{is_ctor, struct_ctor, type_ctor, typecheck_struct_ctor};

use itertools::Itertools;

use crate::{
    CallSignature, Error, Instance, ShaderStage,
    ty::{Ty, Type},
};

type E = Error;

";

fn main() {
    let source = source_directory();
    let out = PathBuf::from(env::var("OUT_DIR").expect("OUT_DIR"));
    write(&out.join("builtin.rs"), &builtin(&source));
    write(&out.join("source.rs"), &root(&source, &out));
    compile_rounding(&out);
}

/// The directory with the nine files, from WGSL_TYPES_SRC or the default place.
fn source_directory() -> PathBuf {
    println!("cargo:rerun-if-env-changed=WGSL_TYPES_SRC");
    let given = env::var("WGSL_TYPES_SRC").unwrap_or_else(|_| "../../shared/docs/src".to_string());
    let path = PathBuf::from(&given).join("src");
    fs::canonicalize(&path)
        .unwrap_or_else(|e| panic!("the Rust source is not at {}: {e}; set WGSL_TYPES_SRC", path.display()))
}

/// builtin/mod.rs, cut down to `call_ctor`.
fn builtin(source: &Path) -> String {
    let text = read(&source.join("builtin/mod.rs"));
    let start = "/// Call a constructor.\n";
    let name = "pub fn call_ctor(ty: &Type, args: &[Instance], stage: ShaderStage) -> Result<Instance, E> {\n";
    let function = cut(&text, start, "\n}\n", "builtin/mod.rs");
    assert!(function.contains(name), "builtin/mod.rs: `call_ctor` is not as expected");
    assert_eq!(function.matches("\npub fn ").count(), 1, "builtin/mod.rs: more than `call_ctor` was cut out");
    let ctor = source.join("builtin/ctor.rs");
    watch(&ctor);
    format!("#[path = {ctor:?}]\npub mod ctor;\n\n{BUILTIN_HEAD}{function}")
}

/// The part of lib.rs that is used (the two types it defines), under the modules it names.
fn root(source: &Path, out: &Path) -> String {
    let text = read(&source.join("lib.rs"));
    for line in ["pub use error::Error;\n", "pub use inst::Instance;\n", "pub use ty::Type;\n"] {
        assert_eq!(text.matches(line).count(), 1, "lib.rs: `{}` is not there once", line.trim());
    }
    let types = cut(&text, "use tplt::TpltParam;\n", "\n    Exec,\n}\n", "lib.rs");
    let mut all = String::new();
    for (visibility, name) in MODULES {
        let path = source.join(format!("{name}.rs"));
        watch(&path);
        all.push_str(&format!("#[path = {path:?}]\n{visibility}mod {name};\n"));
    }
    let builtin = out.join("builtin.rs");
    all.push_str(&format!("#[path = {builtin:?}]\npub mod builtin;\n\n"));
    all.push_str("pub use error::Error;\npub use inst::Instance;\npub use ty::Type;\n\n");
    all + types
}

/// The text from the one place of `start` to the first `end` after it, both included.
fn cut<'a>(text: &'a str, start: &str, end: &str, file: &str) -> &'a str {
    assert_eq!(text.matches(start).count(), 1, "{file}: `{}` is not there once", start.trim());
    let from = text.find(start).expect("start");
    let length = text[from..].find(end).unwrap_or_else(|| panic!("{file}: no end after `{}`", start.trim()));
    &text[from..from + length + end.len()]
}

/// gcc's rounding of an f64 to an f16, as a static library. The object is joined with libgcc's
/// own routine, and only `f64_to_f16` stays visible: Rust's runtime has a routine of the same
/// name, which must not take its place.
fn compile_rounding(out: &Path) {
    let file = "src/f64_to_f16.c";
    println!("cargo:rerun-if-changed={file}");
    let object = out.join("f64_to_f16.o");
    let joined = out.join("joined.o");
    let library = out.join("libf64_to_f16.a");
    run(Command::new("gcc").args(["-O2", "-fPIC", "-c", file, "-o"]).arg(&object));
    run(Command::new("gcc").args(["-r", "-nostdlib", "-o"]).arg(&joined).arg(&object).arg("-lgcc"));
    run(Command::new("objcopy").arg("--keep-global-symbol=f64_to_f16").arg(&joined));
    let _ = fs::remove_file(&library);
    run(Command::new("ar").arg("crs").arg(&library).arg(&joined));
    println!("cargo:rustc-link-search=native={}", out.display());
    println!("cargo:rustc-link-lib=static=f64_to_f16");
}

fn run(command: &mut Command) {
    let status = command.status().unwrap_or_else(|e| panic!("{command:?}: {e}"));
    assert!(status.success(), "{command:?} failed");
}

fn read(path: &Path) -> String {
    watch(path);
    fs::read_to_string(path).unwrap_or_else(|e| panic!("{}: {e}", path.display()))
}

fn write(path: &Path, text: &str) {
    fs::write(path, text).unwrap_or_else(|e| panic!("{}: {e}", path.display()));
}

fn watch(path: &Path) {
    println!("cargo:rerun-if-changed={}", path.display());
}
