//! One call: from records to the source's types and values, through the source, and back.
//! The three steps are separate, so that each can be timed by itself.

use std::panic::{AssertUnwindSafe, catch_unwind};

use crate::{
    Error, Instance, ShaderStage, Type,
    builtin::{call_ctor, ctor},
    conv::{Convert, conversion_rank},
    hex::to_hex,
    inst::LiteralInstance,
    records::{Target, read_target, read_types, read_values, write_target, write_type, write_value},
    refusals::{Refusal, refusal},
    tplt::TpltParam,
    ty::StructType,
};

#[derive(Clone, Copy, Debug, PartialEq, Eq)]
pub enum Entry {
    CallCtor,
    TypeCtor,
    ConvertTo,
    ConversionRank,
}

impl Entry {
    pub const ALL: [Entry; 4] = [Entry::CallCtor, Entry::TypeCtor, Entry::ConvertTo, Entry::ConversionRank];

    pub fn name(self) -> &'static str {
        match self {
            Entry::CallCtor => "call_ctor",
            Entry::TypeCtor => "type_ctor",
            Entry::ConvertTo => "convert_to",
            Entry::ConversionRank => "conversion_rank",
        }
    }

    pub fn named(name: &str) -> Option<Entry> {
        Entry::ALL.into_iter().find(|e| e.name() == name)
    }
}

/// A call as records. The stage counts for `call_ctor` alone.
#[derive(Clone, Debug, PartialEq, Eq)]
pub struct Call {
    pub entry: Entry,
    pub stage: u8,
    pub target: Vec<u8>,
    pub args: Vec<u8>,
}

impl Call {
    fn new(entry: Entry, stage: u8, target: &Target, args: Vec<u8>) -> Call {
        let mut bytes = Vec::new();
        write_target(target, &mut bytes).expect("target record");
        Call { entry, stage, target: bytes, args }
    }

    pub fn build(stage: u8, target: &Target, args: &[Instance]) -> Call {
        Call::new(Entry::CallCtor, stage, target, value_records(args))
    }

    pub fn typing(target: &Target, args: &[Type]) -> Call {
        Call::new(Entry::TypeCtor, 0, target, type_records(args))
    }

    pub fn convert(target: &Type, arg: &Instance) -> Call {
        let args = value_records(std::slice::from_ref(arg));
        Call::new(Entry::ConvertTo, 0, &Target::Type(target.clone()), args)
    }

    pub fn rank(target: &Type, arg: &Type) -> Call {
        let args = type_records(std::slice::from_ref(arg));
        Call::new(Entry::ConversionRank, 0, &Target::Type(target.clone()), args)
    }
}

/// ENTRY STAGE TARGET ARGS, as in the lines of `answers`.
impl std::fmt::Display for Call {
    fn fmt(&self, f: &mut std::fmt::Formatter) -> std::fmt::Result {
        let stage = match self.entry {
            Entry::CallCtor => self.stage.to_string(),
            _ => "-".to_string(),
        };
        write!(f, "{} {stage} {} {}", self.entry.name(), to_hex(&self.target), to_hex(&self.args))
    }
}

fn value_records(values: &[Instance]) -> Vec<u8> {
    let mut bytes = Vec::new();
    for value in values {
        write_value(value, &mut bytes).expect("value record");
    }
    bytes
}

fn type_records(types: &[Type]) -> Vec<u8> {
    let mut bytes = Vec::new();
    for ty in types {
        write_type(ty, &mut bytes).expect("type record");
    }
    bytes
}

// ------
// DECODE
// ------

/// How the source is asked for a type: a struct by its type, everything else by a name and,
/// where the target is a type with parts, template parameters.
#[derive(Clone, Debug)]
pub enum TypingTarget {
    Struct(StructType),
    Named { name: String, template: Option<Vec<TpltParam>> },
}

/// A call in the source's own types.
#[derive(Clone, Debug)]
pub enum Decoded {
    CallCtor { stage: ShaderStage, target: Target, args: Vec<Instance> },
    TypeCtor { target: TypingTarget, args: Vec<Type> },
    ConvertTo { target: Type, arg: Instance },
    ConversionRank { target: Type, arg: Type },
}

/// Reads a call's records; `None` where one is malformed.
pub fn decode(call: &Call) -> Option<Decoded> {
    let target = read_target(&call.target)?;
    Some(match call.entry {
        Entry::CallCtor => {
            let (stage, args) = (stage(call.stage)?, read_values(&call.args)?);
            Decoded::CallCtor { stage, target, args }
        }
        Entry::TypeCtor => {
            let (target, args) = (typing_target(&target)?, read_types(&call.args)?);
            Decoded::TypeCtor { target, args }
        }
        Entry::ConvertTo => {
            let arg = only(read_values(&call.args)?)?;
            Decoded::ConvertTo { target: type_of(target)?, arg }
        }
        Entry::ConversionRank => {
            let arg = only(read_types(&call.args)?)?;
            Decoded::ConversionRank { target: type_of(target)?, arg }
        }
    })
}

fn stage(stage: u8) -> Option<ShaderStage> {
    [ShaderStage::Const, ShaderStage::Override, ShaderStage::Exec].get(stage as usize).copied()
}

fn only<T>(mut list: Vec<T>) -> Option<T> {
    (list.len() == 1).then(|| list.remove(0))
}

fn type_of(target: Target) -> Option<Type> {
    match target {
        Target::Type(ty) => Some(ty),
        _ => None,
    }
}

fn typing_target(target: &Target) -> Option<TypingTarget> {
    Some(match target {
        Target::Type(Type::Struct(s)) => TypingTarget::Struct((**s).clone()),
        Target::Type(ty) => type_name(ty)?,
        Target::Array => named("array", None),
        Target::Vec(n) => named(&format!("vec{n}"), None),
        Target::Mat(c, r) => named(&format!("mat{c}x{r}"), None),
    })
}

/// The name and template by which the source knows a type (see `builtin_type`).
fn type_name(ty: &Type) -> Option<TypingTarget> {
    Some(match ty {
        Type::Bool => named("bool", None),
        Type::AbstractInt => named("__AbstractInt", None),
        Type::AbstractFloat => named("__AbstractFloat", None),
        Type::I32 => named("i32", None),
        Type::U32 => named("u32", None),
        Type::F32 => named("f32", None),
        Type::F16 => named("f16", None),
        Type::Vec(n, inner) => named(&format!("vec{n}"), Some(vec![parameter(inner)])),
        Type::Mat(c, r, inner) => named(&format!("mat{c}x{r}"), Some(vec![parameter(inner)])),
        Type::Array(inner, Some(n)) => named("array", Some(vec![parameter(inner), count(*n)])),
        Type::Array(inner, None) => named("array", Some(vec![parameter(inner)])),
        _ => return None,
    })
}

fn named(name: &str, template: Option<Vec<TpltParam>>) -> TypingTarget {
    TypingTarget::Named { name: name.to_string(), template }
}

fn parameter(ty: &Type) -> TpltParam {
    TpltParam::Type(ty.clone())
}

fn count(n: usize) -> TpltParam {
    TpltParam::Instance(Instance::Literal(LiteralInstance::AbstractInt(n as i64)))
}

// ---
// RUN
// ---

/// What the source gave, still in its own types.
#[derive(Clone, Debug)]
pub enum Outcome {
    Value(Instance),
    Type(Type),
    Rank(u32),
    Refused(Refusal),
    Panic,
}

/// Runs the source on decoded arguments. May panic where the source does.
pub fn run(call: &Decoded) -> Outcome {
    match call {
        Decoded::CallCtor { stage, target, args } => outcome(build(target, args, *stage), Outcome::Value),
        Decoded::TypeCtor { target, args } => outcome(typing(target, args), Outcome::Type),
        Decoded::ConvertTo { target, arg } => converted(arg.convert_to(target), Outcome::Value),
        Decoded::ConversionRank { target, arg } => converted(conversion_rank(arg, target), Outcome::Rank),
    }
}

/// Runs the source; a panic is an outcome.
pub fn run_caught(call: &Decoded) -> Outcome {
    catch_unwind(AssertUnwindSafe(|| run(call))).unwrap_or(Outcome::Panic)
}

fn outcome<T>(result: Result<T, Error>, accepted: impl Fn(T) -> Outcome) -> Outcome {
    match result {
        Ok(value) => accepted(value),
        Err(error) => Outcome::Refused(refusal(&error)),
    }
}

/// The two entries of conv.rs refuse with `None`, which is 9.
fn converted<T>(result: Option<T>, accepted: impl Fn(T) -> Outcome) -> Outcome {
    result.map_or(Outcome::Refused(Refusal::new(9)), accepted)
}

fn build(target: &Target, args: &[Instance], stage: ShaderStage) -> Result<Instance, Error> {
    match target {
        Target::Type(ty) => call_ctor(ty, args, stage),
        Target::Array => ctor::array(args),
        Target::Vec(n) => ctor::vec(*n as usize, args),
        Target::Mat(c, r) => ctor::mat(*c as usize, *r as usize, args),
    }
}

fn typing(target: &TypingTarget, args: &[Type]) -> Result<Type, Error> {
    match target {
        TypingTarget::Struct(ty) => ctor::typecheck_struct_ctor(ty, args).map(|()| ty.clone().into()),
        TypingTarget::Named { name, template } => ctor::type_ctor(name, template.as_deref(), args),
    }
}

// ------
// ENCODE
// ------

#[derive(Clone, Debug, PartialEq, Eq)]
pub enum Answer {
    Ok(Vec<u8>),
    Rank(u32),
    No(Refusal),
    Panic,
}

/// Writes an outcome as a record, a rank or a refusal.
pub fn encode(outcome: &Outcome) -> Answer {
    let mut bytes = Vec::new();
    let written = match outcome {
        Outcome::Value(value) => write_value(value, &mut bytes),
        Outcome::Type(ty) => write_type(ty, &mut bytes),
        Outcome::Rank(rank) => return Answer::Rank(*rank),
        Outcome::Refused(refusal) => return Answer::No(*refusal),
        Outcome::Panic => return Answer::Panic,
    };
    written.map_or(Answer::No(Refusal::UNKNOWN), |()| Answer::Ok(bytes))
}

/// Runs decoded arguments and writes the answer.
pub fn answer(call: &Decoded) -> Answer {
    encode(&run_caught(call))
}

impl std::fmt::Display for Answer {
    fn fmt(&self, f: &mut std::fmt::Formatter) -> std::fmt::Result {
        match self {
            Answer::Ok(bytes) => write!(f, "ok {}", to_hex(bytes)),
            Answer::Rank(rank) => write!(f, "rank {rank}"),
            Answer::Panic => write!(f, "panic"),
            Answer::No(Refusal { number: None, .. }) => write!(f, "no ?"),
            Answer::No(Refusal { number: Some(n), counts: None }) => write!(f, "no {n}"),
            Answer::No(Refusal { number: Some(n), counts: Some((wanted, given)) }) => {
                write!(f, "no {n} {wanted} {given}")
            }
        }
    }
}
