//! The answer that is due from the library: by the class of the call, from the Rust's answer (reference/README.md, "The classes").

use std::borrow::Cow;

use reference::{
    call::{Answer, Call, Entry},
    classes::Class,
    f16,
    inst::LiteralInstance,
    records::{map_literals, read_types, read_values, write_value},
    refusals::Refusal,
};

/// `None` where the Rust's answer leads to none: a panic, or an error without a number.
pub fn due<'a>(class: Class, call: &Call, theirs: &'a Answer) -> Option<Cow<'a, Answer>> {
    match class {
        Class::Rows => Some(Cow::Owned(refused(14))),
        Class::NanFits => Some(Cow::Owned(refused(nan_number(call)))),
        Class::Wrap => whole_total(call).map(Cow::Owned),
        Class::NanBits => own_nans(theirs).map(Cow::Owned),
        Class::Same | Class::Half | Class::Override => {
            let none = matches!(theirs, Answer::Panic | Answer::No(Refusal::UNKNOWN));
            (!none).then_some(Cow::Borrowed(theirs))
        }
    }
}

pub fn refused(number: u8) -> Answer {
    Answer::No(Refusal::new(number))
}

/// A NaN that meets a conversion does not fit: 10 where building refuses with 10 a literal that does not convert, else 9.
fn nan_number(call: &Call) -> u8 {
    let by_ten = call.target[0] == b'Q' || call.target[1] == b'm';
    if call.entry == Entry::CallCtor && by_ten { 10 } else { 9 }
}

/// Typing of a vector, `Tv` n or `Qv` n: its length is wanted, the arguments are given.
fn whole_total(call: &Call) -> Option<Answer> {
    let given = read_types(&call.args)?.len();
    Some(Answer::No(Refusal { number: Some(8), counts: Some((call.target[2].into(), given)) }))
}

/// The Rust's record with document 01's NaN for each of F32 and F16. All of them are made by the call: only a scalar
/// constructor makes NaNs (a conversion refuses), and where one works it makes every literal of the result.
fn own_nans(theirs: &Answer) -> Option<Answer> {
    let Answer::Ok(record) = theirs else {
        return None;
    };
    let mut out = Vec::new();
    for value in read_values(record)? {
        write_value(&map_literals(&value, &own_nan), &mut out)?;
    }
    Some(Answer::Ok(out))
}

fn own_nan(literal: &LiteralInstance) -> LiteralInstance {
    match literal {
        LiteralInstance::F32(n) if n.is_nan() => LiteralInstance::F32(f32::from_bits(0x7FC0_0000)),
        LiteralInstance::F16(n) if n.is_nan() => LiteralInstance::F16(f16::from_bits(0x7E00)),
        other => *other,
    }
}
