//! Stand-in for `half::f16` with the num-traits implementations that the source needs and that
//! half 1.6 lacks. A struct with a named field: ctor.rs has a function `f16`, with which the
//! constructor function of a tuple struct would clash.
//!
//! `from_f64` is the one conversion that half does not round as IEEE 754 says (it cuts the low
//! 32 bits first). It can be switched, per thread, to gcc's `_Float16`.

use std::cell::Cell;

use num_traits::{FromPrimitive, One, ToPrimitive, Zero};

unsafe extern "C" {
    safe fn f64_to_f16(from: f64) -> u16;
}

/// Who rounds an f64 to an f16 when no constructor does.
#[derive(Clone, Copy, Debug, PartialEq, Eq)]
pub enum Rounding {
    Half,
    Gcc,
}

thread_local! {
    static ROUNDING: Cell<Rounding> = const { Cell::new(Rounding::Half) };
    static ROUNDED: Cell<u64> = const { Cell::new(0) };
}

/// Runs `work` with the given rounding, and says how often `from_f64` was called.
pub fn with_rounding<T>(rounding: Rounding, work: impl FnOnce() -> T) -> (T, u64) {
    let before = ROUNDING.replace(rounding);
    ROUNDED.set(0);
    let result = work();
    ROUNDING.set(before);
    (result, ROUNDED.get())
}

#[allow(non_camel_case_types)]
#[derive(Clone, Copy, Debug, PartialEq, PartialOrd)]
pub struct f16 {
    half: half::f16,
}

impl f16 {
    pub const MIN: f16 = f16 { half: half::f16::MIN };
    pub const MAX: f16 = f16 { half: half::f16::MAX };

    pub fn from_bits(bits: u16) -> f16 {
        f16 { half: half::f16::from_bits(bits) }
    }
    pub fn to_bits(self) -> u16 {
        self.half.to_bits()
    }
    pub fn from_f32(from: f32) -> f16 {
        f16 { half: half::f16::from_f32(from) }
    }
    pub fn from_f64(from: f64) -> f16 {
        ROUNDED.set(ROUNDED.get() + 1);
        match ROUNDING.get() {
            Rounding::Half => f16 { half: half::f16::from_f64(from) },
            Rounding::Gcc => f16::from_bits(f64_to_f16(from)),
        }
    }
    pub fn to_f32(self) -> f32 {
        self.half.to_f32()
    }
    pub fn to_f64(self) -> f64 {
        self.half.to_f64()
    }
    pub fn is_infinite(self) -> bool {
        self.half.is_infinite()
    }
    pub fn is_nan(self) -> bool {
        self.half.is_nan()
    }
}

impl std::ops::Add for f16 {
    type Output = f16;
    fn add(self, other: f16) -> f16 {
        f16::from_f32(self.to_f32() + other.to_f32())
    }
}

impl std::ops::Mul for f16 {
    type Output = f16;
    fn mul(self, other: f16) -> f16 {
        f16::from_f32(self.to_f32() * other.to_f32())
    }
}

impl Zero for f16 {
    fn zero() -> f16 {
        f16 { half: half::f16::ZERO }
    }
    fn is_zero(&self) -> bool {
        *self == f16::zero()
    }
}

impl One for f16 {
    fn one() -> f16 {
        f16 { half: half::f16::ONE }
    }
}

impl ToPrimitive for f16 {
    fn to_i64(&self) -> Option<i64> {
        f16::to_f32(*self).to_i64()
    }
    fn to_u64(&self) -> Option<u64> {
        f16::to_f32(*self).to_u64()
    }
    fn to_f32(&self) -> Option<f32> {
        Some(f16::to_f32(*self))
    }
    fn to_f64(&self) -> Option<f64> {
        Some(f16::to_f64(*self))
    }
}

impl FromPrimitive for f16 {
    fn from_i64(from: i64) -> Option<f16> {
        from.to_f32().map(f16::from_f32)
    }
    fn from_u64(from: u64) -> Option<f16> {
        from.to_f32().map(f16::from_f32)
    }
    fn from_f32(from: f32) -> Option<f16> {
        Some(f16::from_f32(from))
    }
    fn from_f64(from: f64) -> Option<f16> {
        Some(f16::from_f64(from))
    }
}
