//! The fixed list reference/answers.txt: its calls and its records.
#![cfg(feature = "std")]

mod answers;
mod batches;
mod lines;
mod records;
