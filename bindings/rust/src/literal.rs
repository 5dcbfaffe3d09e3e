use core::fmt;

use crate::{half, Malformed};

/// The seven scalar kinds with the numbers that the records have for them.
#[derive(Clone, Copy, Debug, PartialEq, Eq, Hash)]
#[repr(u8)]
pub enum Kind {
    /// `bool`
    Bool = 0,
    /// A whole number without a type yet: an i64.
    AbstractInt = 1,
    /// A float without a type yet: an f64.
    AbstractFloat = 2,
    /// `i32`
    I32 = 3,
    /// `u32`
    U32 = 4,
    /// `f32`
    F32 = 5,
    /// `f16`
    F16 = 6,
}

impl Kind {
    /// Every kind, in the order of the numbers.
    pub const ALL: [Kind; 7] =
        [Kind::Bool, Kind::AbstractInt, Kind::AbstractFloat, Kind::I32, Kind::U32, Kind::F32, Kind::F16];

    /// The kind's number.
    pub fn number(self) -> u8 {
        self as u8
    }
}

impl TryFrom<u8> for Kind {
    type Error = Malformed;

    /// The kind of a number; from 7 on there is none.
    fn try_from(number: u8) -> Result<Kind, Malformed> {
        Kind::ALL.get(usize::from(number)).copied().ok_or(Malformed::new(0, "a kind over 6"))
    }
}

/// One scalar: its kind and its payload, low bits first, the unused high bits zero.
///
/// Two literals are equal when kind and bits are: a NaN equals itself, and the two zeros differ.
///
/// Rust's own numbers become literals of their kind, `i64` an AbstractInt and `f64` an AbstractFloat. To Rust a whole
/// number without a suffix is an `i32`: `Literal::from(1)` is an I32, `Literal::from(1i64)` an AbstractInt.
#[derive(Clone, Copy, PartialEq, Eq, Hash)]
pub struct Literal {
    /// The kind.
    pub kind: Kind,
    /// Bool: 0 or 1; signed integers: two's complement in the kind's width; floats: their IEEE 754 bits.
    pub bits: u64,
}

impl Literal {
    /// A Bool.
    pub fn bool(value: bool) -> Literal {
        Literal { kind: Kind::Bool, bits: value.into() }
    }

    /// An AbstractInt.
    pub fn abstract_int(value: i64) -> Literal {
        Literal { kind: Kind::AbstractInt, bits: value as u64 }
    }

    /// An AbstractFloat.
    pub fn abstract_float(value: f64) -> Literal {
        Literal { kind: Kind::AbstractFloat, bits: value.to_bits() }
    }

    /// An I32. The sign goes no further than its 32 bits.
    pub fn i32(value: i32) -> Literal {
        Literal { kind: Kind::I32, bits: (value as u32).into() }
    }

    /// A U32.
    pub fn u32(value: u32) -> Literal {
        Literal { kind: Kind::U32, bits: value.into() }
    }

    /// An F32.
    pub fn f32(value: f32) -> Literal {
        Literal { kind: Kind::F32, bits: value.to_bits().into() }
    }

    /// An F16 from its bits, since Rust has no such type yet.
    pub fn f16(bits: u16) -> Literal {
        Literal { kind: Kind::F16, bits: bits.into() }
    }

    /// The value of a Bool.
    pub fn as_bool(self) -> Option<bool> {
        (self.kind == Kind::Bool).then_some(self.bits != 0)
    }

    /// The value of an AbstractInt.
    pub fn as_abstract_int(self) -> Option<i64> {
        (self.kind == Kind::AbstractInt).then_some(self.bits as i64)
    }

    /// The value of an AbstractFloat.
    pub fn as_abstract_float(self) -> Option<f64> {
        (self.kind == Kind::AbstractFloat).then_some(f64::from_bits(self.bits))
    }

    /// The value of an I32.
    pub fn as_i32(self) -> Option<i32> {
        (self.kind == Kind::I32).then_some(self.bits as i32)
    }

    /// The value of a U32.
    pub fn as_u32(self) -> Option<u32> {
        (self.kind == Kind::U32).then_some(self.bits as u32)
    }

    /// The value of an F32.
    pub fn as_f32(self) -> Option<f32> {
        (self.kind == Kind::F32).then_some(f32::from_bits(self.bits as u32))
    }

    /// The bits of an F16.
    pub fn as_f16(self) -> Option<u16> {
        (self.kind == Kind::F16).then_some(self.bits as u16)
    }

    /// The number of a literal of any kind but Bool, where an f64 holds it exactly: only an AbstractInt may be too long
    /// for one. A NaN stays a NaN.
    pub fn as_f64(self) -> Option<f64> {
        match self.kind {
            Kind::Bool => None,
            Kind::AbstractInt => exact_float(self.bits as i64),
            Kind::AbstractFloat => Some(f64::from_bits(self.bits)),
            Kind::I32 => Some((self.bits as i32).into()),
            Kind::U32 => Some((self.bits as u32).into()),
            Kind::F32 => Some(f32::from_bits(self.bits as u32).into()),
            Kind::F16 => Some(half::number(self.bits as u16)),
        }
    }

    /// The number of a literal of any kind but Bool, where it is whole and fits. Both zeros are 0.
    pub fn as_i64(self) -> Option<i64> {
        self.as_abstract_int().or_else(|| self.as_f64().and_then(whole))
    }
}

/// The number as an f64, if that is the same number. Compared in a type that also holds 2^63, to which the largest are
/// rounded.
fn exact_float(number: i64) -> Option<f64> {
    let float = number as f64;
    (float as i128 == i128::from(number)).then_some(float)
}

/// The float as an i64, if that is the same number.
fn whole(float: f64) -> Option<i64> {
    // Cuts off what isn't whole, and gives the nearest number where it is too large, so that either is another number
    // then.
    let number = float as i128;
    i64::try_from(number).ok().filter(|_| number as f64 == float)
}

/// Rust's numbers as literals, and as values that are one.
macro_rules! from_numbers {
    ($($number:ident as $kind:ident;)+) => {
        $(
            impl From<$number> for Literal {
                fn from(number: $number) -> Literal {
                    Literal::$kind(number)
                }
            }

            #[cfg(feature = "std")]
            impl From<$number> for crate::Value {
                fn from(number: $number) -> crate::Value {
                    Literal::$kind(number).into()
                }
            }
        )+
    };
}

from_numbers! {
    bool as bool;
    i32 as i32;
    u32 as u32;
    f32 as f32;
    f64 as abstract_float;
    i64 as abstract_int;
}

impl fmt::Debug for Literal {
    // Hex, since it is the bits that are compared.
    fn fmt(&self, f: &mut fmt::Formatter<'_>) -> fmt::Result {
        write!(f, "{:?}({:#x})", self.kind, self.bits)
    }
}
