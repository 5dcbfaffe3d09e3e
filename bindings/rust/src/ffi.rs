//! The eight C entries (bindings/c/vireodesk.h). All unsafe code of the crate is here.
//!
//! What C asks of its caller is that each pointer is to as many bytes or jobs as its length says (not null where that
//! is 0), and that what is written, the lent buffer and the list of jobs, overlaps nothing else that is given. The
//! functions of this module take slices, which give the first; mutable borrows beside shared ones give the second. The
//! library asks nothing of the bytes, keeps no pointer and has no state, so no call can disturb a later one or one of
//! another thread.
#![allow(unsafe_code)]

use crate::Job;

/// `struct vireo_answer`: `refusal` is 0 where the call was accepted, and then `value` is the record's length or the
/// rank.
#[derive(Clone, Copy, Debug, Default, PartialEq, Eq)]
#[repr(C)]
pub(crate) struct Answer {
    pub(crate) refusal: u64,
    pub(crate) value: u64,
    pub(crate) wanted: u64,
    pub(crate) given: u64,
}

/// `struct vireo_layout`: `refusal` as in [`Answer`], and in bytes the size and the alignment, 0 where it was refused.
#[derive(Clone, Copy, Debug, PartialEq, Eq)]
#[repr(C)]
pub(crate) struct Extent {
    pub(crate) refusal: u64,
    pub(crate) size: u64,
    pub(crate) align: u64,
}

// As the header has them: usize stands for size_t, and `Answer`, `Job` and `Extent` have the header's fields in its
// order.
extern "C" {
    fn vireo_call_ctor(
        stage: u8,
        target: *const u8,
        target_len: usize,
        args: *const u8,
        args_len: usize,
        out: *mut u8,
        out_len: usize,
    ) -> Answer;
    fn vireo_type_ctor(
        target: *const u8,
        target_len: usize,
        args: *const u8,
        args_len: usize,
        out: *mut u8,
        out_len: usize,
    ) -> Answer;
    fn vireo_convert_to(
        target: *const u8,
        target_len: usize,
        args: *const u8,
        args_len: usize,
        out: *mut u8,
        out_len: usize,
    ) -> Answer;
    fn vireo_conversion_rank(target: *const u8, target_len: usize, args: *const u8, args_len: usize) -> Answer;
    fn vireo_call_batch(
        bytes: *const u8,
        bytes_len: usize,
        jobs: *mut Job,
        jobs_len: usize,
        out: *mut u8,
        out_len: usize,
    ) -> Answer;
    fn vireo_write_layout(args: *const u8, args_len: usize, out: *mut u8, out_len: usize) -> Answer;
    fn vireo_read_layout(
        target: *const u8,
        target_len: usize,
        memory: *const u8,
        memory_len: usize,
        out: *mut u8,
        out_len: usize,
    ) -> Answer;
    fn vireo_layout_of(target: *const u8, target_len: usize) -> Extent;
}

#[inline]
pub(crate) fn call_ctor(stage: u8, target: &[u8], args: &[u8], out: &mut [u8]) -> Answer {
    // SAFETY: three slices, each its pointer and its length, none of them null; `out` is borrowed mutably, so it
    // overlaps neither of the others. Any stage byte will do. The library writes only `out` and keeps nothing past the
    // call.
    unsafe {
        vireo_call_ctor(stage, target.as_ptr(), target.len(), args.as_ptr(), args.len(), out.as_mut_ptr(), out.len())
    }
}

#[inline]
pub(crate) fn type_ctor(target: &[u8], args: &[u8], out: &mut [u8]) -> Answer {
    // SAFETY: as in `call_ctor`: pointers and lengths of slices, `out` apart from the others, nothing kept.
    unsafe { vireo_type_ctor(target.as_ptr(), target.len(), args.as_ptr(), args.len(), out.as_mut_ptr(), out.len()) }
}

#[inline]
pub(crate) fn convert_to(target: &[u8], args: &[u8], out: &mut [u8]) -> Answer {
    // SAFETY: as in `call_ctor`: pointers and lengths of slices, `out` apart from the others, nothing kept.
    unsafe { vireo_convert_to(target.as_ptr(), target.len(), args.as_ptr(), args.len(), out.as_mut_ptr(), out.len()) }
}

#[inline]
pub(crate) fn conversion_rank(target: &[u8], args: &[u8]) -> Answer {
    // SAFETY: two slices, each its pointer and its length; both are only read, and nothing is kept.
    unsafe { vireo_conversion_rank(target.as_ptr(), target.len(), args.as_ptr(), args.len()) }
}

#[inline]
pub(crate) fn call_batch(bytes: &[u8], jobs: &mut [Job], out: &mut [u8]) -> Answer {
    // SAFETY: three slices, each its pointer and its length, none of them null; `jobs` and `out` are borrowed mutably,
    // so no two of the three overlap. A job may hold any numbers: the library looks at its parts before it reads them.
    // It writes only `out` and the jobs, any numbers of which are a `Job` again, and keeps nothing past the call.
    unsafe { vireo_call_batch(bytes.as_ptr(), bytes.len(), jobs.as_mut_ptr(), jobs.len(), out.as_mut_ptr(), out.len()) }
}

#[inline]
pub(crate) fn write_layout(args: &[u8], out: &mut [u8]) -> Answer {
    // SAFETY: as in `call_ctor`: pointers and lengths of slices, `out` apart from the other, nothing kept.
    unsafe { vireo_write_layout(args.as_ptr(), args.len(), out.as_mut_ptr(), out.len()) }
}

#[inline]
pub(crate) fn read_layout(target: &[u8], memory: &[u8], out: &mut [u8]) -> Answer {
    // SAFETY: as in `call_ctor`: pointers and lengths of slices, `out` apart from the others, nothing kept.
    unsafe {
        vireo_read_layout(target.as_ptr(), target.len(), memory.as_ptr(), memory.len(), out.as_mut_ptr(), out.len())
    }
}

#[inline]
pub(crate) fn layout_of(target: &[u8]) -> Extent {
    // SAFETY: a slice, its pointer and its length; it is only read, and nothing is kept.
    unsafe { vireo_layout_of(target.as_ptr(), target.len()) }
}
