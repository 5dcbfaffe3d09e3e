//! Medians of interleaved runs.

use crate::{clock, sides::Pass};

/// A measured stretch of one side takes at least so long.
const STRETCH_NS: f64 = 1e6;

/// Nanoseconds of one pass by each side of each group: medians of some runs. In a run each has its turn, so a change of
/// the machine's speed meets all of them. A turn begins with a pass that is not measured, so that none starts with caches
/// that another filled.
pub fn medians(groups: Vec<Vec<Pass>>, runs: usize) -> Vec<Vec<f64>> {
    let mut groups: Vec<Vec<Turns>> = groups.into_iter().map(|g| g.into_iter().map(Turns::new).collect()).collect();
    for _ in 0..runs {
        groups.iter_mut().flatten().for_each(Turns::take);
    }
    groups.into_iter().map(|g| g.into_iter().map(Turns::median).collect()).collect()
}

struct Turns<'a> {
    pass: Pass<'a>,
    /// passes in a measured stretch
    passes: u32,
    /// nanoseconds of a pass, by turn
    ns: Vec<f64>,
}

impl<'a> Turns<'a> {
    fn new(mut pass: Pass<'a>) -> Turns<'a> {
        pass();
        let once = time(&mut pass, 1).max(1.0);
        Turns { pass, passes: (STRETCH_NS / once).ceil() as u32, ns: Vec::new() }
    }

    fn take(&mut self) {
        (self.pass)();
        self.ns.push(time(&mut self.pass, self.passes));
    }

    fn median(mut self) -> f64 {
        self.ns.sort_by(f64::total_cmp);
        self.ns[self.ns.len() / 2]
    }
}

/// Nanoseconds of one pass, over several.
fn time(pass: &mut Pass, passes: u32) -> f64 {
    let start = clock::now();
    for _ in 0..passes {
        pass();
    }
    (clock::now() - start) / f64::from(passes)
}
