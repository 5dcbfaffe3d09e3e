//! The Rust reference: wgsl-types 0.6.0 with byte records around it.
//!
//! The source's own files say `crate::`, so its modules stand at the root of this crate; the
//! module `source` gathers them. See build.rs for the two files that are cut.

// The Rust source: modules conv, error, inst, syntax, tplt, ty, builtin, and the types of lib.rs.
include!(concat!(env!("OUT_DIR"), "/source.rs"));

// Stand-ins for what the source names and the nine files lack.
mod display;
pub mod half_float;
pub use half_float::f16;

/// The Rust source under one name.
pub mod source {
    pub use crate::{CallSignature, Error, Instance, ShaderStage, Type, builtin, conv, f16, inst, syntax, tplt, ty};
}

pub mod call;
pub mod classes;
pub mod generate;
pub mod hex;
pub mod records;
pub mod refusals;
