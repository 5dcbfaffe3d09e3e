//! The class of a call: which departure of documents 01 and 02, if any, it shows. Decided from the
//! call and from the Rust's own answers, never from other code.

use crate::{
    Instance, ShaderStage, Type,
    call::{Answer, Decoded, Outcome, TypingTarget, encode, run_caught},
    half_float::{Rounding, with_rounding},
    inst::LiteralInstance,
    records::{Target, for_each_literal, literal_bits, map_literals},
    ty::Ty,
};

#[derive(Clone, Copy, Debug, PartialEq, Eq)]
pub enum Class {
    Same,
    Rows,
    NanFits,
    NanBits,
    Half,
    Wrap,
    Override,
}

impl Class {
    pub const ALL: [Class; 7] =
        [Class::Same, Class::Rows, Class::NanFits, Class::NanBits, Class::Half, Class::Wrap, Class::Override];

    pub fn name(self) -> &'static str {
        match self {
            Class::Same => "same",
            Class::Rows => "rows",
            Class::NanFits => "nan-fits",
            Class::NanBits => "nan-bits",
            Class::Half => "half",
            Class::Wrap => "wrap",
            Class::Override => "override",
        }
    }
}

/// Runs a call and finds its class. At Override the answer is the Rust's at Const, and the class
/// says where its own is another.
pub fn classified(call: &Decoded) -> (Class, Answer) {
    let Some(at_const) = at_const(call) else {
        return departure(call);
    };
    let (class, answer) = departure(&at_const);
    if class == Class::Same && encode(&run_caught(call)) != answer {
        return (Class::Override, answer);
    }
    (class, answer)
}

/// The class by document 01. The answer is the one by gcc's rounding where the two roundings from
/// f64 to f16 differ; elsewhere there is one answer.
fn departure(call: &Decoded) -> (Class, Answer) {
    let (by_half, rounded) = with_rounding(Rounding::Half, || run_caught(call));
    let answer = encode(&by_half);
    if nan_fits(call, &answer) {
        return (Class::NanFits, answer);
    }
    let by_gcc = if rounded > 0 { gcc_answer(call) } else { answer.clone() };
    if rows(call, &by_gcc) {
        return (Class::Rows, by_gcc);
    }
    if wrap(call, &by_gcc) {
        return (Class::Wrap, by_gcc);
    }
    if by_gcc != answer {
        return (Class::Half, by_gcc);
    }
    if nan_bits(call, &by_half) {
        return (Class::NanBits, answer);
    }
    (Class::Same, answer)
}

fn gcc_answer(call: &Decoded) -> Answer {
    encode(&with_rounding(Rounding::Gcc, || run_caught(call)).0)
}

// --------
// override
// --------

/// A building call at Override, as it is at Const; `None` for every other call.
fn at_const(call: &Decoded) -> Option<Decoded> {
    match call {
        Decoded::CallCtor { stage: ShaderStage::Override, target, args } => {
            Some(Decoded::CallCtor { stage: ShaderStage::Const, target: target.clone(), args: args.clone() })
        }
        _ => None,
    }
}

// ----
// rows
// ----

/// `Qm c r` with a vector argument of another length than r, where the Rust answers ok or 8.
fn rows(call: &Decoded, answer: &Answer) -> bool {
    let taken = matches!(answer, Answer::Ok(_)) || is_number(answer, 8);
    taken
        && match call {
            Decoded::CallCtor { target: Target::Mat(_, r), args, .. } => args.iter().any(|a| other_length(&a.ty(), *r)),
            Decoded::TypeCtor { target: TypingTarget::Named { name, template: None }, args } => {
                untemplated_rows(name).is_some_and(|r| args.iter().any(|a| other_length(a, r)))
            }
            _ => false,
        }
}

fn other_length(ty: &Type, r: u8) -> bool {
    matches!(ty, Type::Vec(n, _) if *n != r)
}

/// The rows in a name such as `mat2x3`.
fn untemplated_rows(name: &str) -> Option<u8> {
    name.strip_prefix("mat")?.split_once('x')?.1.parse().ok()
}

fn is_number(answer: &Answer, number: u8) -> bool {
    matches!(answer, Answer::No(refusal) if refusal.number == Some(number))
}

// ----
// wrap
// ----

/// Typing of a vector whose components are 256 or more in all, where the Rust's total, kept in
/// one byte, came out as the vector's length. Document 01 answers 8 there.
fn wrap(call: &Decoded, answer: &Answer) -> bool {
    let Decoded::TypeCtor { target: TypingTarget::Named { name, .. }, args } = call else {
        return false;
    };
    let Some(n) = name.strip_prefix("vec").and_then(|n| n.parse::<usize>().ok()) else {
        return false;
    };
    let total: usize = args.iter().map(components).sum();
    let refused_before = is_number(answer, 12) || is_number(answer, 16);
    total >= 256 && !refused_before && (total % 256 == n || *answer == Answer::Panic)
}

fn components(ty: &Type) -> usize {
    match ty {
        Type::Vec(n, _) => *n as usize,
        ty if ty.is_scalar() => 1,
        _ => 0,
    }
}

// --------
// nan-fits
// --------

/// An AbstractFloat NaN meets a conversion and changes the answer by it. Found by running the
/// call again with every such NaN replaced by infinity, which the Rust refuses exactly where a
/// float result that isn't finite is to be refused.
fn nan_fits(call: &Decoded, answer: &Answer) -> bool {
    let Some(other) = with_infinities(call) else {
        return false;
    };
    if by_constructor(call) {
        return false;
    }
    let other = encode(&run_caught(&other));
    let both_taken = matches!((answer, &other), (Answer::Ok(_), Answer::Ok(_)));
    !both_taken && *answer != other
}

/// The calls in which a scalar constructor, not a conversion, takes the literals.
fn by_constructor(call: &Decoded) -> bool {
    let Decoded::CallCtor { target: Target::Type(ty), args, .. } = call else {
        return false;
    };
    match (ty, &args[..]) {
        (ty, _) if ty.is_scalar() => true,
        (Type::Vec(..), [Instance::Vec(_)]) => true,
        (Type::Mat(..), [Instance::Mat(_)]) => true,
        _ => false,
    }
}

/// The call with infinity for every AbstractFloat NaN; `None` if there is no such NaN.
fn with_infinities(call: &Decoded) -> Option<Decoded> {
    match call {
        Decoded::CallCtor { stage, target, args } => args.iter().any(has_abstract_nan).then(|| Decoded::CallCtor {
            stage: *stage,
            target: target.clone(),
            args: args.iter().map(infinite).collect(),
        }),
        Decoded::ConvertTo { target, arg } => {
            has_abstract_nan(arg).then(|| Decoded::ConvertTo { target: target.clone(), arg: infinite(arg) })
        }
        _ => None,
    }
}

fn has_abstract_nan(value: &Instance) -> bool {
    let mut found = false;
    for_each_literal(value, &mut |l| found |= is_abstract_nan(l));
    found
}

fn is_abstract_nan(l: &LiteralInstance) -> bool {
    matches!(l, LiteralInstance::AbstractFloat(n) if n.is_nan())
}

fn infinite(value: &Instance) -> Instance {
    map_literals(value, &|l| match is_abstract_nan(l) {
        true => LiteralInstance::AbstractFloat(f64::INFINITY),
        false => *l,
    })
}

// --------
// nan-bits
// --------

/// The result has an F32 or F16 NaN whose bits don't stand with that kind among the arguments.
fn nan_bits(call: &Decoded, outcome: &Outcome) -> bool {
    let Outcome::Value(value) = outcome else {
        return false;
    };
    let made = nans(std::slice::from_ref(value));
    if made.is_empty() {
        return false;
    }
    let given = match call {
        Decoded::CallCtor { args, .. } => nans(args),
        Decoded::ConvertTo { arg, .. } => nans(std::slice::from_ref(arg)),
        _ => Vec::new(),
    };
    made.iter().any(|nan| !given.contains(nan))
}

/// Kind and bits of every F32 and F16 NaN.
fn nans(values: &[Instance]) -> Vec<(u8, u64)> {
    let mut found = Vec::new();
    for value in values {
        for_each_literal(value, &mut |l| {
            let nan = match l {
                LiteralInstance::F32(n) => n.is_nan(),
                LiteralInstance::F16(n) => n.is_nan(),
                _ => false,
            };
            if nan {
                found.push(literal_bits(l));
            }
        });
    }
    found
}
