//! The number of document 01 for each error of the Rust source.

use crate::{Error, Type};

/// A refusal: its number (`None` where an error could not be numbered) and, for 8, the two counts.
#[derive(Clone, Copy, Debug, PartialEq, Eq)]
pub struct Refusal {
    pub number: Option<u8>,
    pub counts: Option<(usize, usize)>,
}

impl Refusal {
    pub const UNKNOWN: Refusal = Refusal { number: None, counts: None };

    pub fn new(number: u8) -> Refusal {
        Refusal { number: Some(number), counts: None }
    }
}

/// The number of an error. Only the variant, the message and, for a name or a scalar kind that
/// the error carries, that name or kind are looked at.
pub fn refusal(error: &Error) -> Refusal {
    let number = match error {
        Error::NotConstructible(_) => Some(4),
        Error::Signature(s) if s.name.starts_with("__Abstract") => Some(4),
        Error::Signature(_) => Some(5),
        Error::Conversion(_, _) => Some(7),
        Error::ParamCount(_, wanted, given) => return count(*wanted, *given),
        Error::ParamType(_, _) => Some(9),
        Error::ConvOverflow(_, Type::I32 | Type::U32) => Some(15),
        Error::ConvOverflow(_, Type::F32 | Type::F16) => Some(21),
        Error::TemplateArgs("array") => Some(16),
        Error::Builtin(message) => message_number(message),
        _ => None,
    };
    Refusal { number, counts: None }
}

fn count(wanted: usize, given: usize) -> Refusal {
    Refusal { number: Some(8), counts: Some((wanted, given)) }
}

fn message_number(message: &str) -> Option<u8> {
    Some(match message {
        "bool constructor expects a scalar argument"
        | "i32 constructor expects a scalar argument"
        | "u32 constructor expects a scalar argument"
        | "f32 constructor expects a scalar argument"
        | "f16 constructor expects a scalar argument" => 6,
        "array elements are incompatible"
        | "vector components are incompatible"
        | "matrix components are incompatible" => 10,
        "array constructor expects at least 1 argument"
        | "matrix constructor expects arguments"
        | "zero-value matrix constructor requires a template" => 11,
        "vector type must be a scalar"
        | "vec constructor expects scalar arguments"
        | "vector constructor expects scalar or vector arguments" => 12,
        "matrix type must be a f32 or f16" | "matrix constructor expects float or vector of float arguments" => 13,
        "column vector dimension does not match matrix row dimension" => 14,
        "vector template type must be a scalar" => 16,
        _ => return None,
    })
}
