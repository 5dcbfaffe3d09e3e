#![cfg_attr(feature = "std", doc = include_str!("../README.md"))]
#![cfg_attr(
    not(feature = "std"),
    doc = "The library's entries on byte records. What allocates needs the feature `std`."
)]
#![cfg_attr(not(feature = "std"), no_std)]
#![deny(missing_docs, unsafe_code)]

mod bytes;
mod ffi;
mod half;
mod job;
#[cfg(feature = "std")]
mod layout;
mod literal;
mod malformed;
#[cfg(feature = "std")]
mod owned;
#[cfg(feature = "std")]
mod record;
mod refusal;
#[cfg(feature = "std")]
mod route;
mod stage;
#[cfg(feature = "std")]
mod target;
#[cfg(feature = "std")]
mod ty;
#[cfg(feature = "std")]
mod value;
mod wgsl;

pub use bytes::{
    call_batch_bytes, call_ctor_bytes, conversion_rank_bytes, convert_to_bytes, layout_of_bytes, read_layout_bytes,
    type_ctor_bytes, write_layout_bytes,
};
pub use job::{Job, Part, MOST_JOBS};
#[cfg(feature = "std")]
pub use layout::Layout;
pub use literal::{Kind, Literal};
pub use malformed::Malformed;
#[cfg(feature = "std")]
pub use owned::{call_ctor, conversion_rank, convert_to, type_ctor, LONGEST};
pub use refusal::Refusal;
#[cfg(feature = "std")]
pub use route::Route;
pub use stage::Stage;
#[cfg(feature = "std")]
pub use target::Target;
#[cfg(feature = "std")]
pub use ty::Type;
#[cfg(feature = "std")]
pub use value::Value;
