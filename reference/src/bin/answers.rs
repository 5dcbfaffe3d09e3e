//! Prints calls and the Rust's answers, one a line.
//!
//! answers --seed N --calls N [--entry E]   generated calls
//! answers --stdin                          calls read as lines: ENTRY STAGE TARGET ARGS

use std::{
    collections::BTreeMap,
    io::{BufRead, BufWriter, Write},
    process::ExitCode,
};

use reference::{
    call::{Answer, Call, Entry, decode},
    classes::{Class, classified},
    generate,
    hex::from_hex,
};

const USAGE: &str = "usage: answers --seed N --calls N [--entry call_ctor|type_ctor|convert_to|conversion_rank]\n       answers --stdin";

fn main() -> ExitCode {
    // The source's panics are answers here, so their messages are not printed.
    std::panic::set_hook(Box::new(|_| {}));
    let args: Vec<String> = std::env::args().skip(1).collect();
    let done = match Options::read(&args) {
        Some(Options::Stdin) => print_read(),
        Some(Options::Generate { seed, calls, entry }) => print_generated(&args, seed, calls, entry),
        None => Err(USAGE.to_string()),
    };
    done.map_or_else(
        |message| {
            eprintln!("{message}");
            ExitCode::FAILURE
        },
        |()| ExitCode::SUCCESS,
    )
}

enum Options {
    Stdin,
    Generate { seed: u64, calls: usize, entry: Option<Entry> },
}

impl Options {
    fn read(args: &[String]) -> Option<Options> {
        if args == ["--stdin"] {
            return Some(Options::Stdin);
        }
        let (mut seed, mut calls, mut entry) = (None, None, None);
        for pair in args.chunks(2) {
            match pair {
                [name, value] if name == "--seed" => seed = Some(value.parse().ok()?),
                [name, value] if name == "--calls" => calls = Some(value.parse().ok()?),
                [name, value] if name == "--entry" => entry = Some(Entry::named(value)?),
                _ => return None,
            }
        }
        Some(Options::Generate { seed: seed?, calls: calls?, entry })
    }
}

type Done = Result<(), String>;

fn print_generated(args: &[String], seed: u64, count: usize, entry: Option<Entry>) -> Done {
    let mut out = BufWriter::new(std::io::stdout().lock());
    let mut counts = Counts::default();
    let head = format!(
        "# reference/run answers {}\n# seed {seed}, calls {count}\n# CLASS ENTRY STAGE TARGET ARGS ANSWER...\n",
        args.join(" ")
    );
    out.write_all(head.as_bytes()).map_err(|e| e.to_string())?;
    for call in generate::calls(seed, count, entry) {
        print_call(&mut out, &call, &mut counts)?;
    }
    out.flush().map_err(|e| e.to_string())?;
    counts.print();
    Ok(())
}

fn print_read() -> Done {
    let mut out = BufWriter::new(std::io::stdout().lock());
    let mut counts = Counts::default();
    for line in std::io::stdin().lock().lines() {
        let line = line.map_err(|e| e.to_string())?;
        if line.is_empty() || line.starts_with('#') {
            continue;
        }
        let call = read_call(&line).ok_or_else(|| format!("not a call: {line}"))?;
        print_call(&mut out, &call, &mut counts)?;
    }
    out.flush().map_err(|e| e.to_string())
}

fn read_call(line: &str) -> Option<Call> {
    let words: Vec<&str> = line.split_whitespace().collect();
    let [entry, stage, target, args] = words[..] else {
        return None;
    };
    let entry = Entry::named(entry)?;
    let stage = if entry == Entry::CallCtor { stage.parse().ok()? } else { 0 };
    Some(Call { entry, stage, target: from_hex(target)?, args: from_hex(args)? })
}

fn print_call(out: &mut impl Write, call: &Call, counts: &mut Counts) -> Done {
    let decoded = decode(call).ok_or_else(|| format!("malformed call: {call}"))?;
    let (class, answer) = classified(&decoded);
    counts.add(class, call, &answer);
    writeln!(out, "{} {call} {answer}", class.name()).map_err(|e| e.to_string())
}

/// Counts by class, by entry and answer, and the bytes of arguments.
#[derive(Default)]
struct Counts {
    calls: usize,
    classes: BTreeMap<&'static str, usize>,
    answers: BTreeMap<(&'static str, Kind), usize>,
    taken: usize,
    panics: usize,
    unnumbered: usize,
    argument_bytes: usize,
    longest: usize,
}

/// An answer without its record.
#[derive(Clone, Copy, PartialEq, Eq, PartialOrd, Ord)]
enum Kind {
    Ok,
    Rank(u32),
    No(u8),
    Unnumbered,
    Panic,
}

impl Kind {
    fn of(answer: &Answer) -> Kind {
        match answer {
            Answer::Ok(_) => Kind::Ok,
            Answer::Rank(rank) => Kind::Rank(*rank),
            Answer::No(refusal) => refusal.number.map_or(Kind::Unnumbered, Kind::No),
            Answer::Panic => Kind::Panic,
        }
    }

    fn text(self) -> String {
        match self {
            Kind::Ok => "ok".to_string(),
            Kind::Rank(rank) => format!("rank {rank}"),
            Kind::No(number) => format!("no {number}"),
            Kind::Unnumbered => "no ?".to_string(),
            Kind::Panic => "panic".to_string(),
        }
    }
}

impl Counts {
    fn add(&mut self, class: Class, call: &Call, answer: &Answer) {
        let kind = Kind::of(answer);
        self.calls += 1;
        *self.classes.entry(class.name()).or_default() += 1;
        *self.answers.entry((call.entry.name(), kind)).or_default() += 1;
        self.taken += matches!(kind, Kind::Ok | Kind::Rank(_)) as usize;
        self.panics += (kind == Kind::Panic) as usize;
        self.unnumbered += (kind == Kind::Unnumbered) as usize;
        self.argument_bytes += call.args.len();
        self.longest = self.longest.max(call.args.len());
    }

    fn print(&self) {
        eprintln!("calls {}, accepted {}, panic {}, no ? {}", self.calls, self.taken, self.panics, self.unnumbered);
        let mean = self.argument_bytes / self.calls.max(1);
        eprintln!("argument bytes: {mean} on average, {} at most", self.longest);
        for (class, count) in &self.classes {
            eprintln!("class {class} {count}");
        }
        for ((entry, kind), count) in &self.answers {
            eprintln!("{entry} {} {count}", kind.text());
        }
    }
}
