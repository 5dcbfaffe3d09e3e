//! What was seen: counts by class and entry, the first differing calls, and the time of each side.

use std::{collections::BTreeMap, time::Duration};

use reference::{
    call::{Answer, Call},
    classes::Class,
};

use crate::{BATCH, Options};

/// How many differing calls are shown.
const SHOWN: usize = 10;

#[derive(Debug, Default, PartialEq)]
pub struct Tally {
    counts: BTreeMap<(&'static str, &'static str), Count>,
    /// Place of the call in the order of generation, and its line; the first ones.
    shown: Vec<(usize, String)>,
    pub spent: Spent,
}

#[derive(Clone, Copy, Debug, Default, PartialEq)]
struct Count {
    calls: usize,
    differing: usize,
}

/// Time inside each side alone, over all threads.
#[derive(Clone, Copy, Debug, Default, PartialEq)]
pub struct Spent {
    pub library: Duration,
    pub reference: Duration,
}

impl Tally {
    /// One call, with the Rust's answer and, where the library's is not the one that is due, that one in words. Calls are
    /// added in their order.
    pub fn add(&mut self, place: usize, call: &Call, (class, theirs): (Class, &Answer), differing: Option<String>) {
        let count = self.counts.entry((class.name(), call.entry.name())).or_default();
        count.calls += 1;
        if let Some(ours) = differing {
            count.differing += 1;
            if self.shown.len() < SHOWN {
                self.shown.push((place, format!("{} {call} {theirs} | library: {ours}", class.name())));
            }
        }
    }

    /// Both together. The result does not depend on which thread had which call.
    pub fn joined(mut self, other: Tally) -> Tally {
        for (key, count) in other.counts {
            let sum = self.counts.entry(key).or_default();
            sum.calls += count.calls;
            sum.differing += count.differing;
        }
        self.shown.extend(other.shown);
        self.shown.sort();
        self.shown.truncate(SHOWN);
        self.spent.library += other.spent.library;
        self.spent.reference += other.spent.reference;
        self
    }

    pub fn calls(&self) -> usize {
        self.counts.values().map(|count| count.calls).sum()
    }

    pub fn differing(&self) -> usize {
        self.counts.values().map(|count| count.differing).sum()
    }

    pub fn print(&self, options: &Options, elapsed: Duration) {
        self.shown.iter().for_each(|(_, line)| println!("{line}"));
        println!("{:<9} {:<16} {:>10} {:>12}  due from the library", "class", "entry", "calls", "differences");
        for ((class, entry), count) in &self.counts {
            println!("{class:<9} {entry:<16} {:>10} {:>12}  {}", count.calls, count.differing, due_in_words(class));
        }
        let rate = |time: Duration| self.calls() as f64 / time.as_secs_f64();
        println!("each side alone, calls a second of one thread, timed over batches of {BATCH} calls:");
        println!(
            "  library   {:>10.0}  one call of the entry on bytes, a buffer of 64 KiB lent",
            rate(self.spent.library)
        );
        println!("  reference {:>10.0}  decode, run and encode", rate(self.spent.reference));
        println!(
            "seed {}: {} calls, {} unlisted differences, {:.1} seconds, {:.0} calls a second in all (threads: {}; \
             generating, judging and the calls again included)",
            options.seed,
            self.calls(),
            self.differing(),
            elapsed.as_secs_f64(),
            rate(elapsed),
            options.threads
        );
    }
}

fn due_in_words(class: &str) -> &'static str {
    match class {
        "same" => "the Rust's answer",
        "half" => "the Rust's answer with one rounding by gcc",
        "nan-bits" => "the Rust's record with document 01's NaN",
        "nan-fits" => "a refusal: 10 where a matrix or an untemplated shape is built, else 9",
        "rows" => "14",
        "override" => "the Rust's answer at Const",
        _ => "8, the vector's length, the number of arguments",
    }
}
