use core::ops::Range;

use crate::{ffi::Answer, refusal::judged, Refusal};

/// The most jobs that one call takes; with more it is refused (23).
pub const MOST_JOBS: usize = 256;

/// A part of the lent slice. One that reaches outside the slice, or is empty and begins past its end, is refused (24).
#[derive(Clone, Copy, Debug, PartialEq, Eq, Hash)]
#[repr(C)]
pub struct Part {
    /// How many bytes of the slice come before it.
    pub start: usize,
    /// How many bytes it has.
    pub len: usize,
}

/// One constructor call among those of [`call_batch_bytes`](crate::call_batch_bytes), and its answer.
#[derive(Clone, Copy, Debug, PartialEq, Eq)]
#[repr(C)]
pub struct Job {
    /// Where the target's record is in the lent slice.
    pub target: Part,
    /// Where the arguments' records are.
    pub args: Part,
    /// 0, 1 or 2, as [`Stage`](crate::Stage) has them; any other is refused (3).
    pub stage: u8,
    answer: Answer,
    at: usize,
}

impl Job {
    /// A job that has no answer yet.
    pub fn new(stage: u8, target: Part, args: Part) -> Job {
        Job { target, args, stage, answer: Answer::default(), at: 0 }
    }

    /// The answer of the last call that took the job: the record's place in the result buffer, or the refusal. Where
    /// there was none yet, an empty place, which no record has.
    #[inline]
    pub fn result(&self) -> Result<Range<usize>, Refusal> {
        // The record ends within the buffer, so the sum fits.
        judged(self.answer).map(|length| self.at..self.at + length as usize)
    }

    /// Where the record begins in the result buffer; for a refused job, where the next record may begin.
    #[inline]
    pub fn at(&self) -> usize {
        self.at
    }
}
