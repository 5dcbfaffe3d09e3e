//! The entries over byte records. Nothing is asked of the bytes, and nothing is allocated.
//!
//! They and what they call are inline, but for what a refusal takes, so that a caller in another crate pays for the C
//! entry alone.

use crate::{
    ffi,
    refusal::{judged, judged_extent, judged_rank},
    Job, Refusal,
};

/// Building: what the target's constructor makes of the value records in `args`, at stage 0, 1 or 2. Gives the length
/// of the value record at the front of `out`; the bytes past it stay as they were, and a refusal leaves all of `out` as
/// it was.
#[inline]
pub fn call_ctor_bytes(stage: u8, target: &[u8], args: &[u8], out: &mut [u8]) -> Result<usize, Refusal> {
    // A record's length is at most that of `out`, so it fits.
    judged(ffi::call_ctor(stage, target, args, out)).map(|length| length as usize)
}

/// Typing: the type of what the target's constructor makes, from the type records in `args`. Gives the length of the
/// type record at the front of `out`, which is otherwise left alone as in [`call_ctor_bytes`]. 4,096 bytes are always
/// enough: no type record is longer.
#[inline]
pub fn type_ctor_bytes(target: &[u8], args: &[u8], out: &mut [u8]) -> Result<usize, Refusal> {
    judged(ffi::type_ctor(target, args, out)).map(|length| length as usize)
}

/// Conversion without a constructor: the one value record in `args` as the target's type. Gives the length of the value
/// record at the front of `out`, which is otherwise left alone as in [`call_ctor_bytes`].
#[inline]
pub fn convert_to_bytes(target: &[u8], args: &[u8], out: &mut [u8]) -> Result<usize, Refusal> {
    judged(ffi::convert_to(target, args, out)).map(|length| length as usize)
}

/// The rank of that conversion, 0 to 7, for the one type record in `args`.
#[inline]
pub fn conversion_rank_bytes(target: &[u8], args: &[u8]) -> Result<u8, Refusal> {
    judged_rank(ffi::conversion_rank(target, args))
}

/// Building, a whole list of jobs in one call. Each in its turn is answered as [`call_ctor_bytes`] answers it alone
/// with what is left of `out`, and [`Job::result`] gives its answer: records come one after another from the front of
/// `out`, and a refused job writes nothing. Gives how many bytes were written; those past them stay as they were.
///
/// Refused as a whole are more than [`MOST_JOBS`](crate::MOST_JOBS) jobs (23), else a job with a part outside `bytes`
/// (24). Then `out` and all jobs, with the answers that they had, stay as they were.
#[inline]
pub fn call_batch_bytes(bytes: &[u8], jobs: &mut [Job], out: &mut [u8]) -> Result<usize, Refusal> {
    judged(ffi::call_batch(bytes, jobs, out)).map(|length| length as usize)
}

/// The one value record in `args` as it lies in WGSL's memory layout. Gives its length at the front of `out`, which is
/// exactly its type's size; padding is zero, and `out` is otherwise left alone as in [`call_ctor_bytes`]. A type that
/// holds a Bool or an abstract kind has no layout (25).
#[inline]
pub fn write_layout_bytes(args: &[u8], out: &mut [u8]) -> Result<usize, Refusal> {
    judged(ffi::write_layout(args, out)).map(|length| length as usize)
}

/// The value of the target's type that lies in `memory`, whose length is to be the type's size (26); padding makes no
/// difference. Gives the length of the value record at the front of `out`, which is otherwise left alone as in
/// [`call_ctor_bytes`].
#[inline]
pub fn read_layout_bytes(target: &[u8], memory: &[u8], out: &mut [u8]) -> Result<usize, Refusal> {
    judged(ffi::read_layout(target, memory, out)).map(|length| length as usize)
}

/// The size and the alignment, in bytes, of the target's type in WGSL's memory layout. A size past 64 bits is 22.
#[inline]
pub fn layout_of_bytes(target: &[u8]) -> Result<(u64, u64), Refusal> {
    judged_extent(ffi::layout_of(target))
}
