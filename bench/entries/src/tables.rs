//! The tables, aligned and in the form that a Markdown file takes.

use crate::{
    groups::{Group, commas},
    sides,
};

/// A group and nanoseconds of one pass by each side, in the order of their names.
pub struct Measured<'a> {
    pub group: &'a Group,
    pub ns: Vec<f64>,
}

impl Measured<'_> {
    fn of_a_unit(&self, side: usize) -> Option<f64> {
        self.ns.get(side).map(|ns| ns / self.group.units as f64)
    }

    pub fn of_a_call(&self, side: usize) -> Option<f64> {
        self.ns.get(side).map(|ns| ns / self.group.calls.len() as f64)
    }
}

/// Times, and how many times as fast as each other side the first is. Nothing without groups.
pub fn times(names: [&str; 4], all: &[Measured]) -> Option<String> {
    let mut head = vec!["group".to_string(), "ns a".to_string()];
    head.extend(names.map(String::from));
    head.extend(names[1..].iter().map(|name| format!("{} / {}", name.trim_start_matches("Rust, "), names[0])));
    let rows = all.iter().map(|m| {
        let times = (0..names.len()).map(|side| told(m.of_a_unit(side)));
        let ratios = (1..names.len()).map(|side| told(m.ns.get(side).map(|ns| ns / m.ns[0])));
        [m.group.name.clone(), m.group.unit.to_string()].into_iter().chain(times).chain(ratios).collect()
    });
    (!all.is_empty()).then(|| table(head, rows.collect()))
}

/// How far each goal is met: over how many rows it goes, in how many it is met, and the range of what it is about.
pub fn goals(alone: &[Measured], together: &[Measured]) -> String {
    let faster = |all: &[Measured], side: usize, kept: fn(&Group) -> bool| -> Vec<f64> {
        all.iter().filter(|m| kept(m.group)).filter_map(|m| Some(m.ns.get(side)? / m.ns[0])).collect()
    };
    let growths = alone.windows(2).filter_map(|pair| growths(&pair[0], &pair[1], 0));
    let slower = faster(alone, 3, |_| true).into_iter().map(|times| 1.0 / times);
    let rows = [
        goal("growth for ten times the literals: at most 11", &growths.collect::<Vec<_>>(), |x| x <= 11.0),
        goal("call / library, building: at least 1", &faster(alone, 2, |g| !g.is_typing()), |x| x >= 1.0),
        goal("call / library, typing: at least 1", &faster(alone, 2, Group::is_typing), |x| x >= 1.0),
        goal("records / library: at least 10", &faster(alone, 1, |_| true), |x| x >= 10.0),
        goal("library / C loop: at most 3", &slower.collect::<Vec<_>>(), |x| x <= 3.0),
        goal("one by one / batch: at least 1", &faster(together, 1, |_| true), |x| x >= 1.0),
    ];
    table(["goal", "rows", "met in", "least", "most"].map(String::from).to_vec(), rows.to_vec())
}

fn goal(text: &str, all: &[f64], met: fn(f64) -> bool) -> Vec<String> {
    let counted = [all.len(), all.iter().filter(|x| met(**x)).count()].map(|n| n.to_string());
    let ends = [all.iter().copied().reduce(f64::min), all.iter().copied().reduce(f64::max)].map(told);
    [text.to_string()].into_iter().chain(counted).chain(ends).collect()
}

/// How many times as long a call takes with more literals.
pub fn growth(all: &[Measured]) -> Option<String> {
    let rows: Vec<_> = all.windows(2).filter_map(|pair| growth_row(&pair[0], &pair[1])).collect();
    let head = ["growth", "literals in a call"].into_iter().chain(sides::NAMES).map(String::from).collect();
    (!rows.is_empty()).then(|| table(head, rows))
}

/// The sizes of one group follow one another.
fn growth_row(small: &Measured, large: &Measured) -> Option<Vec<String>> {
    let ((name, n), (_, m)) = (small.group.size.as_ref()?, large.group.size.as_ref()?);
    let first = [name.clone(), format!("{} to {}", commas(*n), commas(*m))];
    let ratios = (0..sides::NAMES.len()).map(|side| fixed(growths(small, large, side)));
    small.group.same_but_for_size(large.group).then(|| first.into_iter().chain(ratios).collect())
}

/// How many times as long the side takes for a call of the larger size; nothing where these are not sizes of one group.
fn growths(small: &Measured, large: &Measured, side: usize) -> Option<f64> {
    let sizes = small.group.size.is_some() && small.group.same_but_for_size(large.group);
    Some(large.of_a_call(side)? / small.of_a_call(side)?).filter(|_| sizes)
}

/// Three digits that count, as far as tenths go; nothing for a side that has no such group.
fn told(number: Option<f64>) -> String {
    number.map_or(String::new(), |x| match x {
        x if x < 0.1 => format!("{x:.3}"),
        x if x < 10.0 => format!("{x:.2}"),
        x => format!("{x:.1}"),
    })
}

fn fixed(number: Option<f64>) -> String {
    number.map_or(String::new(), |x| format!("{x:.2}"))
}

/// The first column is text, the others are set to the right.
fn table(head: Vec<String>, rows: Vec<Vec<String>>) -> String {
    let widths: Vec<usize> = (0..head.len())
        .map(|i| rows.iter().chain([&head]).map(|row| row[i].chars().count()).max().unwrap_or(0))
        .collect();
    let line = |row: &Vec<String>| {
        let cells = row.iter().zip(&widths).enumerate();
        let cells =
            cells.map(|(i, (cell, &w))| if i == 0 { format!("| {cell:<w$} ") } else { format!("| {cell:>w$} ") });
        cells.collect::<String>() + "|\n"
    };
    let rule = widths
        .iter()
        .enumerate()
        .map(|(i, &w)| if i == 0 { "|".to_string() + &"-".repeat(w + 2) } else { format!("|{}:", "-".repeat(w + 1)) });
    line(&head) + &rule.collect::<String>() + "|\n" + &rows.iter().map(line).collect::<String>()
}
