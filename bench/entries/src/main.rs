//! The library's entries beside the Rust reference and a plain C loop: the same calls, in one run, warmed up, medians.
//!
//! [NAME] [--runs N] [--plot FILE]: the groups that have NAME in their name, or all; all of them also make the plot.
//! Routes, timed in one call and one by one, have a table of their own.
//!
//! The Rust is measured two ways: from records to records (it decodes, calls, encodes), and its call alone on arguments
//! that are decoded already. Before anything is timed, the answers of all sides to each call are compared byte for byte.
//! Exits 1 where they differ.

mod batch;
mod clock;
mod groups;
mod plain;
mod plot;
mod progress;
mod sides;
mod tables;
mod timing;

use std::{process::ExitCode, time::Instant};

use groups::{Group, commas, groups, routes};
use progress::Progress;
use reference::call::Decoded;
use sides::Pass;
use tables::Measured;

const USAGE: &str = "usage: bench/run [NAME] [--runs N] [--to FOLDER]";

struct Options {
    name: Option<String>,
    runs: usize,
    plot: Option<String>,
}

impl Options {
    fn read(mut words: impl Iterator<Item = String>) -> Option<Options> {
        let mut options = Options { name: None, runs: 51, plot: None };
        while let Some(word) = words.next() {
            match word.as_str() {
                "--runs" => options.runs = words.next()?.parse().ok().filter(|n| *n > 0)?,
                "--plot" => options.plot = Some(words.next()?),
                word if word.starts_with('-') || options.name.is_some() => return None,
                _ => options.name = Some(word),
            }
        }
        Some(options)
    }

    fn wanted(&self, mut groups: Vec<Group>) -> Vec<Group> {
        groups.retain(|group| self.name.as_ref().is_none_or(|name| group.name.contains(name.as_str())));
        groups
    }
}

fn main() -> ExitCode {
    let Some(options) = Options::read(std::env::args().skip(1)) else {
        eprintln!("{USAGE}");
        return ExitCode::from(2);
    };
    let groups = groups();
    let routes = routes(&groups);
    let names: String = groups.iter().chain(&routes).map(|g| format!("\n  {}", g.name)).collect();
    let (groups, routes) = (options.wanted(groups), options.wanted(routes));
    if groups.is_empty() && routes.is_empty() {
        eprintln!("{USAGE}\nno group has that in its name; the groups are{names}");
        return ExitCode::from(2);
    }
    let start = Instant::now();
    if !compared(&groups, sides::difference) || !compared(&routes, batch::difference) {
        return ExitCode::FAILURE;
    }
    let alone = measured(&groups, options.runs, sides::passes);
    let together = measured(&routes, options.runs, batch::passes);
    println!("{}\n{}\n- A / B: how many times as fast B is as A", sides::MEANING, batch::MEANING);
    println!("- all in processor time, the same calls on all sides, their answers compared first\n");
    println!("{}", tables::goals(&alone, &together));
    let times = [tables::times(sides::NAMES, &alone), tables::times(batch::NAMES, &together)];
    for table in times.iter().flatten().chain(&tables::growth(&alone)) {
        println!("{table}");
    }
    if let (Some(file), None) = (&options.plot, &options.name) {
        if let Err(error) = std::fs::write(file, plot(&alone)) {
            eprintln!("{file}: {error}");
            return ExitCode::FAILURE;
        }
        eprintln!("{file} written");
    }
    let calls: usize = groups.iter().chain(&routes).map(|g| g.calls.len()).sum();
    println!(
        "{} groups, medians of {} runs; {} calls answered alike by every side; {:.0} s",
        groups.len() + routes.len(),
        options.runs,
        commas(calls),
        start.elapsed().as_secs_f64()
    );
    ExitCode::SUCCESS
}

/// Whether all sides answer alike; what differs is told.
fn compared(groups: &[Group], difference: fn(&Group) -> Option<String>) -> bool {
    let mut progress = Progress::new();
    let mut differing = 0;
    for group in groups {
        progress.tell(&format!("comparing {}", group.name));
        if let Some(difference) = difference(group) {
            progress.end();
            println!("{}: not one record from all sides: {difference}", group.name);
            differing += 1;
        }
    }
    progress.end();
    if differing > 0 {
        println!("{differing} of {} groups differ; nothing was timed", groups.len());
    }
    differing == 0
}

/// A pass over a group's calls by each side.
type Passes = for<'a> fn(&'a Group, &'a [Decoded]) -> Vec<Pass<'a>>;

/// The sizes of one group are timed together, so that a change of the machine's speed does not look like growth.
fn measured(groups: &[Group], runs: usize, passes: Passes) -> Vec<Measured<'_>> {
    let mut progress = Progress::new();
    let mut all = Vec::new();
    for sizes in groups.chunk_by(Group::same_but_for_size) {
        progress.tell(&format!("{} of {}: {}", all.len() + 1, groups.len(), sizes[0].common_name()));
        let decoded: Vec<_> = sizes.iter().map(sides::decode_all).collect();
        let passes: Vec<_> = sizes.iter().zip(&decoded).map(|(group, calls)| passes(group, calls)).collect();
        let ns = timing::medians(passes, runs);
        all.extend(sizes.iter().zip(ns).map(|(group, ns)| Measured { group, ns }));
    }
    progress.end();
    all
}

fn plot(all: &[Measured]) -> String {
    let plotted = all.iter().filter_map(|m| {
        let (name, literals) = m.group.size.as_ref()?;
        let ns = (0..sides::NAMES.len()).map(|side| m.of_a_call(side)).collect::<Option<_>>()?;
        (name == groups::PLOTTED).then_some(plot::Point { literals: *literals, ns })
    });
    plot::svg("call_ctor of an array of N mixed literals to F32", &plotted.collect::<Vec<_>>())
}
