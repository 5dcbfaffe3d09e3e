//! The lines of the fixed list reference/answers.txt.

const PATH: &str = concat!(env!("CARGO_MANIFEST_DIR"), "/../../reference/answers.txt");

/// CLASS ENTRY STAGE TARGET ARGS ANSWER...
pub struct Line {
    pub number: usize,
    pub class: String,
    pub entry: String,
    /// 0 where the entry has none.
    pub stage: u8,
    pub target: Vec<u8>,
    pub args: Vec<u8>,
    pub answer: Answer,
}

#[derive(Clone, Debug, PartialEq)]
pub enum Answer {
    Record(Vec<u8>),
    Rank(u8),
    /// The number, and the two counts of 8.
    No(u8, Option<(u64, u64)>),
}

pub fn lines() -> Vec<Line> {
    let text = std::fs::read_to_string(PATH).unwrap_or_else(|error| panic!("{PATH}: {error}"));
    let lines: Vec<Line> = text
        .lines()
        .enumerate()
        .filter(|(_, line)| !line.starts_with('#'))
        .map(|(place, line)| parsed(place + 1, line).unwrap_or_else(|| panic!("{PATH}:{}: {line}", place + 1)))
        .collect();
    assert_eq!(lines.len(), 5500, "the list has 5,500 calls");
    lines
}

fn parsed(number: usize, line: &str) -> Option<Line> {
    let words: Vec<&str> = line.split(' ').collect();
    let [class, entry, stage, target, args, rest @ ..] = &words[..] else { return None };
    let answer = match rest {
        ["ok", record] => Answer::Record(bytes(record)?),
        ["rank", rank] => Answer::Rank(rank.parse().ok()?),
        ["no", "8", wanted, given] => Answer::No(8, Some((wanted.parse().ok()?, given.parse().ok()?))),
        ["no", number] => Answer::No(number.parse().ok()?, None),
        _ => return None,
    };
    let stage = if *stage == "-" { 0 } else { stage.parse().ok()? };
    let (target, args) = (bytes(target)?, bytes(args)?);
    Some(Line { number, class: class.to_string(), entry: entry.to_string(), stage, target, args, answer })
}

fn bytes(hex: &str) -> Option<Vec<u8>> {
    if hex == "-" {
        return Some(Vec::new());
    }
    (0..hex.len()).step_by(2).map(|at| u8::from_str_radix(hex.get(at..at + 2)?, 16).ok()).collect()
}
