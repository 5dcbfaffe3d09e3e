//! The sides: the library, the Rust two ways, and the C loop where a group has one.

use std::hint::black_box;

use reference::{
    call::{Answer, Call, Decoded, Entry, answer, decode, encode, run},
    hex::to_hex,
};
use vireodesk::{Refusal, call_ctor_bytes, convert_to_bytes, type_ctor_bytes};

use crate::groups::Group;

pub const NAMES: [&str; 4] = ["library", "Rust, records", "Rust, call", "C loop"];

/// What the names mean.
pub const MEANING: &str = "\
- library: a call on bytes; building is `call_ctor` and `convert_to`
- Rust, records: from records to records (it decodes, calls, encodes)
- Rust, call: its call alone, on arguments that are decoded already
- C loop: reads the literals without a check, converts with the hardware's instruction, writes the record";

/// Longer than every record of the groups, and than all records of a route.
pub const ROOM: usize = 1 << 20;

/// What a buffer holds before a call whose answer is compared, so that a side that writes nothing does not pass by what
/// another left there.
pub const FILL: u8 = 0xa5;

/// One pass over a group's calls by one side.
pub type Pass<'a> = Box<dyn FnMut() + 'a>;

/// The library on one call: the record's length.
pub fn library(call: &Call, out: &mut [u8]) -> Result<usize, Refusal> {
    match call.entry {
        Entry::CallCtor => call_ctor_bytes(call.stage, &call.target, &call.args, out),
        Entry::TypeCtor => type_ctor_bytes(&call.target, &call.args, out),
        Entry::ConvertTo => convert_to_bytes(&call.target, &call.args, out),
        Entry::ConversionRank => unreachable!("no group asks for a rank"),
    }
}

fn decoded(call: &Call) -> Decoded {
    decode(call).expect("a well-formed call")
}

/// The calls as the Rust has them, for its call alone.
pub fn decode_all(group: &Group) -> Vec<Decoded> {
    group.calls.iter().map(decoded).collect()
}

/// A pass by each side, in the order of `NAMES`; the C loop only where the group has one.
pub fn passes<'a>(group: &'a Group, decoded_calls: &'a [Decoded]) -> Vec<Pass<'a>> {
    let calls = &group.calls;
    let (mut out, mut other) = (vec![0; ROOM], vec![0; ROOM]);
    let mut all: Vec<Pass> = vec![
        Box::new(move || {
            for call in calls {
                black_box(library(black_box(call), &mut out).unwrap_or(0));
            }
        }),
        Box::new(move || {
            for call in calls {
                black_box(encode(&run(&decoded(black_box(call)))));
            }
        }),
        Box::new(move || {
            for call in decoded_calls {
                black_box(run(black_box(call)));
            }
        }),
    ];
    if let Some(plain) = group.plain {
        all.push(Box::new(move || {
            for call in calls {
                black_box(plain.call(&black_box(call).args, &mut other));
            }
        }));
    }
    all
}

/// The first call of the group that the sides do not answer with one and the same record, and what they say.
pub fn difference(group: &Group) -> Option<String> {
    let mut out = vec![0; ROOM];
    group.calls.iter().find_map(|call| {
        let answers = answers(group, call, &mut out);
        let same = matches!(&answers[0], Answer::Ok(_)) && answers.iter().all(|a| *a == answers[0]);
        (!same).then(|| told(call, &answers))
    })
}

/// The answers of the library, of the Rust and of the C loop.
fn answers(group: &Group, call: &Call, out: &mut [u8]) -> Vec<Answer> {
    out.fill(FILL);
    let ours = match library(call, out) {
        Ok(length) => Answer::Ok(out[..length].to_vec()),
        Err(refusal) => Answer::No(reference::refusals::Refusal::new(refusal.number())),
    };
    let mut all = vec![ours, answer(&decoded(call))];
    if let Some(plain) = group.plain {
        out.fill(FILL);
        let length = plain.call(&call.args, out);
        all.push(Answer::Ok(out[..length].to_vec()));
    }
    all
}

/// The call and the answers, long ones from shortly before the place where they part.
fn told(call: &Call, answers: &[Answer]) -> String {
    let texts: Vec<String> = answers.iter().map(Answer::to_string).collect();
    let part = |i: &usize| texts.iter().any(|text| text.as_bytes().get(*i) != texts[0].as_bytes().get(*i));
    let from = (0..texts[0].len()).find(part).unwrap_or(0).saturating_sub(30);
    let shown = |text: &str, from: usize| text.chars().skip(from).take(90).collect::<String>();
    let sides = ["library", "Rust", "C loop"].iter().zip(&texts);
    let lines: String = sides.map(|(side, text)| format!("\n  {side:<8} {}", shown(text, from))).collect();
    let (target, args) = (to_hex(&call.target), to_hex(&call.args));
    format!("target {}, arguments {}; answers from sign {from}:{lines}", shown(&target, 0), shown(&args, 0))
}
