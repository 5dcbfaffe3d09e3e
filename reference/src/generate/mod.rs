//! Calls made from a seed: first a fixed part that goes over the edges, then random ones. Every
//! call is well formed and within document 01's limits.

pub mod edges;
pub mod prng;
pub mod random;
pub mod systematic;
pub mod values;

use crate::call::{Call, Entry};
use prng::Prng;

/// `count` calls, of one entry only if one is named.
pub fn calls(seed: u64, count: usize, entry: Option<Entry>) -> impl Iterator<Item = Call> {
    let mut rng = Prng::new(seed);
    let endless = std::iter::repeat_with(move || random::call(&mut rng));
    let wanted = move |call: &Call| entry.is_none_or(|e| call.entry == e);
    systematic::calls().into_iter().chain(endless).filter(wanted).take(count)
}
