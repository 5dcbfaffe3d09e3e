//! The static library beside the Rust reference on the same calls, in one process.
//!
//! comparing [CALLS [SEED]] [--entry E] [--threads N]
//!
//! Exits 1 where the library's answer is not the one that is due, 2 where the arguments are not as above.

mod judge;
mod lent;
mod library;
mod tally;
#[cfg(test)]
mod tests;

use std::{
    hint::black_box,
    process::ExitCode,
    sync::Mutex,
    thread,
    time::{Duration, Instant},
};

use reference::{
    call::{Call, Decoded, Entry, answer, decode},
    classes::classified,
    generate,
};

use lent::{Lent, ROOM};
use library::Reply;
use tally::Tally;

const USAGE: &str =
    "usage: compare [CALLS [SEED]] [--entry call_ctor|type_ctor|convert_to|conversion_rank] [--threads N]";

/// Calls that a thread takes at once. Each side is timed over a whole batch, so that the clock itself does not count.
const BATCH: usize = 1024;

fn main() -> ExitCode {
    let args: Vec<String> = std::env::args().skip(1).collect();
    let Some(options) = Options::read(&args) else {
        eprintln!("{USAGE}");
        return ExitCode::from(2);
    };
    let start = Instant::now();
    let tally = compare(&options, library::reply);
    tally.print(&options, start.elapsed());
    ExitCode::from((tally.differing() > 0) as u8)
}

#[derive(Debug, PartialEq)]
struct Options {
    calls: usize,
    seed: u64,
    entry: Option<Entry>,
    threads: usize,
}

impl Options {
    fn read(args: &[String]) -> Option<Options> {
        let (mut words, mut numbers, mut entry, mut threads) = (args.iter(), Vec::new(), None, 2);
        while let Some(word) = words.next() {
            match word.as_str() {
                "--entry" => entry = Some(Entry::named(words.next()?)?),
                "--threads" => threads = words.next()?.parse().ok()?,
                number => numbers.push(number.parse().ok()?),
            }
        }
        let (calls, seed) = match numbers[..] {
            [] => (100_000, 1),
            [calls] => (calls, 1),
            [calls, seed] => (calls, seed),
            _ => return None,
        };
        (calls > 0 && threads > 0).then_some(Options { calls: calls as usize, seed, entry, threads })
    }
}

/// Every call of the options through both sides; `entry` is the library's.
fn compare(options: &Options, entry: impl Fn(&Call, &mut [u8]) -> Reply + Sync) -> Tally {
    let calls = generate::calls(options.seed, options.calls, options.entry);
    let feed = Mutex::new(Feed { calls, taken: 0, of: options.calls, differing: 0, said: Instant::now() });
    thread::scope(|scope| {
        let threads: Vec<_> = (0..options.threads).map(|_| scope.spawn(|| work(&feed, &entry))).collect();
        let tallies = threads.into_iter().map(|thread| thread.join().expect("a thread that ends"));
        tallies.fold(Tally::default(), Tally::joined)
    })
}

/// Gives the calls out in their order, and says from time to time how far it is.
struct Feed<I> {
    calls: I,
    taken: usize,
    of: usize,
    differing: usize,
    said: Instant,
}

impl<I: Iterator<Item = Call>> Feed<I> {
    /// The next calls and the place of the first. `differing` is what the thread found in its last batch.
    fn batch(&mut self, differing: usize) -> (usize, Vec<Call>) {
        self.differing += differing;
        if self.said.elapsed() > Duration::from_secs(10) {
            self.said = Instant::now();
            eprintln!("compare: {} of {} calls, {} differ", self.taken, self.of, self.differing);
        }
        let (first, batch) = (self.taken, self.calls.by_ref().take(BATCH).collect::<Vec<_>>());
        self.taken += batch.len();
        (first, batch)
    }
}

/// One thread's part: batch after batch, each side timed alone, then the calls judged one by one.
fn work<I: Iterator<Item = Call>>(feed: &Mutex<Feed<I>>, entry: impl Fn(&Call, &mut [u8]) -> Reply) -> Tally {
    let (mut tally, mut lent, mut out) = (Tally::default(), Lent::new(), vec![0; ROOM]);
    let mut before = 0;
    loop {
        let (first, batch) = feed.lock().expect("no thread panicked").batch(tally.differing() - before);
        if batch.is_empty() {
            return tally;
        }
        before = tally.differing();
        tally.spent.reference += timed(&batch, |call| answer(&decoded(call)));
        tally.spent.library += timed(&batch, |call| entry(call, &mut out));
        for (i, call) in batch.iter().enumerate() {
            judged(&mut tally, &mut lent, first + i, call, &entry);
        }
    }
}

fn timed<T>(batch: &[Call], mut side: impl FnMut(&Call) -> T) -> Duration {
    let start = Instant::now();
    for call in batch {
        black_box(side(black_box(call)));
    }
    start.elapsed()
}

fn decoded(call: &Call) -> Decoded {
    decode(call).expect("a generated call is well formed")
}

fn judged(tally: &mut Tally, lent: &mut Lent, place: usize, call: &Call, entry: impl Fn(&Call, &mut [u8]) -> Reply) {
    let (class, theirs) = classified(&decoded(call));
    let due = judge::due(class, call, &theirs);
    let differing = lent.check(due.as_deref(), |out| entry(call, out)).err();
    tally.add(place, call, (class, &theirs), differing);
}
