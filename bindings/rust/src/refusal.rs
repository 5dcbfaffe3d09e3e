use core::{error, fmt};

use crate::ffi::{Answer, Extent};

/// Makes [`Refusal`] of one row for each: its number, its name, what it means, what to do about it. The one that
/// carries counts of the answer has their names on a line before its row.
macro_rules! refusals {
    ($($(with $($count:ident)+:)? $number:literal $name:ident, $words:literal, $advice:literal;)+) => {
        /// Why a call was refused, and what to do about it.
        #[derive(Clone, Copy, Debug, PartialEq, Eq, Hash)]
        #[non_exhaustive]
        pub enum Refusal {
            $(
                #[doc = concat!("**", $number, "** ", $words, ". *", $advice, "*")]
                $name $({
                    $(
                        #[doc = concat!("How many were ", stringify!($count), ".")]
                        $count: u64,
                    )+
                })?,
            )+
        }

        impl Refusal {
            /// The number that documents 01 and 02 and the C header have for it.
            pub fn number(&self) -> u8 {
                match self {
                    $(Refusal::$name { .. } => $number,)+
                }
            }

            /// What it means.
            pub fn words(&self) -> &'static str {
                match self {
                    $(Refusal::$name { .. } => $words,)+
                }
            }

            /// What to do about it.
            pub fn advice(&self) -> &'static str {
                match self {
                    $(Refusal::$name { .. } => $advice,)+
                }
            }
        }

        /// The refusal of an answer that has one. Not inline, so that accepted calls do not pay for it.
        #[cold]
        #[inline(never)]
        fn refused(answer: Answer) -> Refusal {
            match answer.refusal {
                $($number => Refusal::$name $({ $($count: answer.$count),+ })?,)+
                number => other_version("refusal", number),
            }
        }
    };
}

// The texts are those of docs/FORMAT.md, which a test compares by lines: each row is one.
refusals! {
    1 BadTarget, "The target is no well-formed record, or a shape (`Qa`, `Qv`, `Qm`) where a conversion needs a type", "Mend the encoder: marks, counts, at most 15 levels and 4,096 bytes.";
    2 BadArgument, "An argument is no well-formed record; or there are too many, or another number than one for a conversion", "Mend the encoder: one kind in a vector, one type in an array, zero in unused payload bytes, at most 65,535 arguments.";
    3 NoStage, "The stage is over 2", "0 is Const, 1 Override, 2 Exec.";
    4 NotConstructible, "Nothing to construct: an abstract scalar type with arguments, typing of one, or a runtime-sized array without arguments", "Name a concrete type, or give the array its elements.";
    5 SeveralForScalar, "A scalar type with two or more arguments (typing: also with one that is no scalar)", "Give it one scalar.";
    6 NotAScalar, "A scalar type with one argument that is no scalar", "Take the component that is meant.";
    7 Mismatch, "Shape or type mismatch: a vector or matrix of another size; typing: an array element that does not convert", "Give it the size or the type that the target has.";
    with wanted given:
    8 Count, "Another number than the target takes; `wanted` and `given` say which", "Add or drop arguments: nothing is filled up or cut off.";
    9 NoConversion, "An argument does not convert to what the target wants, by its type or because a literal does not fit", "Write the conversion as a constructor (`f32(x)`), or a literal within range.";
    10 NoCommonType, "No common type, or a component that does not convert to it (typing: also an untemplated array without arguments)", "Make the parts one type, or name the type in the target.";
    11 ArgumentsNeeded, "An untemplated array or matrix without arguments (typing: a matrix alone)", "Name a type, whose zero value it then is, or give arguments.";
    12 VectorPart, "A vector's part is neither scalar nor vector, or one vector is to become an abstract vector type", "Give scalars and vectors; name a concrete kind.";
    13 FloatsNeeded, "A matrix of something else than floats, or one matrix into a matrix type of AbstractFloat", "Convert to f32 or f16 first.";
    14 ColumnLength, "A column of another length than the matrix has rows", "Give columns of that length: short ones are not taken.";
    15 IntegerRange, "An AbstractInt outside i32 or u32", "Correct the number, or choose the other kind.";
    16 NotTyped, "Typing of a runtime-sized array or of an abstract vector type", "Name the count, or a concrete kind.";
    21 FloatRange, "Outside the float's range, or NaN, at Const or Override", "Correct the number; at Exec it is rounded all the same, to an infinity where it is too large, and a NaN stays one.";
    22 NoRoom, "The record, or the value in memory, is longer than the lent buffer; nothing was written", "Lend more: the length follows from the type.";
    23 TooManyJobs, "More than 256 jobs in one call", "Make two calls of them.";
    24 PartOutside, "A job's part reaches outside the slice, or is empty and begins past its end", "Mend the job's starts and lengths.";
    25 NoLayout, "The type holds Bool, an abstract kind or a runtime-sized array, which have no place in a buffer", "Convert to a 32-bit kind or F16 first; give the array its count.";
    26 MemorySize, "The memory read is not as long as the type's size", "Hand over exactly the bytes that `layout_of` says.";
}

/// The answer's value, or its refusal.
#[inline]
pub(crate) fn judged(answer: Answer) -> Result<u64, Refusal> {
    match answer.refusal {
        0 => Ok(answer.value),
        _ => Err(refused(answer)),
    }
}

/// The rank, or the refusal.
#[inline]
pub(crate) fn judged_rank(answer: Answer) -> Result<u8, Refusal> {
    judged(answer).map(|rank| match rank {
        0..=7 => rank as u8,
        _ => other_version("rank", rank),
    })
}

/// The size and the alignment, or the refusal.
#[inline]
pub(crate) fn judged_extent(extent: Extent) -> Result<(u64, u64), Refusal> {
    judged(Answer { refusal: extent.refusal, ..Answer::default() }).map(|_| (extent.size, extent.align))
}

/// The library answers what no library of the crate's version does.
#[cold]
fn other_version(what: &str, number: u64) -> ! {
    panic!("the library answers {what} {number}, which this crate does not know: they must be of one version")
}

impl fmt::Display for Refusal {
    /// `refusal N: WORDS. ADVICE`. The words of 8 end by naming its counts, in place of which it has them.
    fn fmt(&self, f: &mut fmt::Formatter<'_>) -> fmt::Result {
        let (number, words, advice) = (self.number(), self.words(), self.advice());
        match (self, words.split_once(';')) {
            (Refusal::Count { wanted, given }, Some((words, _))) => {
                write!(f, "refusal {number}: {words}: {wanted} wanted, {given} given. {advice}")
            }
            _ => write!(f, "refusal {number}: {words}. {advice}"),
        }
    }
}

impl error::Error for Refusal {}

#[cfg(all(test, feature = "std"))]
mod tests {
    use std::panic::catch_unwind;

    use super::*;

    fn answer(refusal: u64) -> Answer {
        Answer { refusal, value: 7, wanted: 3, given: 2 }
    }

    #[test]
    fn each_number_is_its_refusals() {
        for number in (1..=16).chain(21..=26) {
            assert_eq!(u64::from(judged(answer(number)).unwrap_err().number()), number);
        }
        assert_eq!(judged(answer(8)), Err(Refusal::Count { wanted: 3, given: 2 }));
        assert_eq!((judged(answer(0)), judged_rank(answer(0))), (Ok(7), Ok(7)));
    }

    /// What a panic says.
    fn said<T>(call: fn(Answer) -> T, answer: Answer) -> Option<String> {
        let panic = catch_unwind(|| call(answer)).err()?;
        panic.downcast_ref::<String>().cloned()
    }

    #[test]
    fn any_other_number_is_of_another_version() {
        for number in (17..=20).chain(27..=300).chain([u64::MAX]) {
            let words = said(judged, answer(number)).expect("a panic");
            assert!(words.contains(&format!(" refusal {number},")) && words.ends_with("must be of one version"));
        }
        for rank in [8, 256, u64::MAX] {
            let words = said(judged_rank, Answer { value: rank, ..Answer::default() }).expect("a panic");
            assert!(words.contains(&format!(" rank {rank},")), "{words}");
        }
    }
}
