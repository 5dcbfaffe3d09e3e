//! Everything as WGSL writes it: kinds, stages and literals here, what is made of them in `trees`.

use core::fmt::{self, Display, Formatter};

use crate::{half, Kind, Literal, Stage};

#[cfg(feature = "std")]
mod trees;

impl Display for Kind {
    /// The name of the type. WGSL can't name the abstract ones; here they are called as in its specification.
    fn fmt(&self, f: &mut Formatter<'_>) -> fmt::Result {
        f.pad(match self {
            Kind::Bool => "bool",
            Kind::AbstractInt => "AbstractInt",
            Kind::AbstractFloat => "AbstractFloat",
            Kind::I32 => "i32",
            Kind::U32 => "u32",
            Kind::F32 => "f32",
            Kind::F16 => "f16",
        })
    }
}

impl Display for Stage {
    fn fmt(&self, f: &mut Formatter<'_>) -> fmt::Result {
        f.pad(match self {
            Stage::Const => "Const",
            Stage::Override => "Override",
            Stage::Exec => "Exec",
        })
    }
}

impl Display for Literal {
    /// The number with the suffix of its kind: `true`, `3` (AbstractInt), `1.5` (AbstractFloat), `-3i`, `7u`, `0.508f`,
    /// `1.5h`. A float has the fewest digits that read back as the same number in its kind.
    ///
    /// WGSL has no literal for the least I32 and the least AbstractInt, since its literals have no sign, and without it
    /// these are too large: they are `i32(-2147483648)` and `(-9223372036854775807 - 1)`. It can't write infinities and
    /// NaNs at all: of every float kind they are `inf`, `-inf` and `nan(0x7fc00000)`, with the NaN's bits.
    fn fmt(&self, f: &mut Formatter<'_>) -> fmt::Result {
        let bare = Bare(*self);
        match self.kind {
            Kind::I32 if self.as_i32() == Some(i32::MIN) => write!(f, "i32({bare})"),
            Kind::I32 => write!(f, "{bare}i"),
            Kind::U32 => write!(f, "{bare}u"),
            Kind::F32 if is_finite(*self) => write!(f, "{bare}f"),
            Kind::F16 if is_finite(*self) => write!(f, "{bare}h"),
            _ => write!(f, "{bare}"),
        }
    }
}

fn is_finite(literal: Literal) -> bool {
    literal.as_f64().is_some_and(f64::is_finite)
}

/// A literal without its suffix, for where a template says its kind.
struct Bare(Literal);

impl Display for Bare {
    fn fmt(&self, f: &mut Formatter<'_>) -> fmt::Result {
        let Literal { kind, bits } = self.0;
        match kind {
            Kind::Bool => write!(f, "{}", bits != 0),
            Kind::AbstractInt if bits as i64 == i64::MIN => write!(f, "({} - 1)", i64::MIN + 1),
            Kind::AbstractInt => write!(f, "{}", bits as i64),
            Kind::I32 => write!(f, "{}", bits as i32),
            Kind::U32 => write!(f, "{}", bits as u32),
            _ if self.0.as_f64().is_some_and(f64::is_nan) => nan(f, self.0),
            Kind::AbstractFloat => write!(f, "{:?}", f64::from_bits(bits)),
            Kind::F32 => write!(f, "{:?}", f32::from_bits(bits as u32)),
            Kind::F16 => write!(f, "{:?}", half::shortest(bits as u16)),
        }
    }
}

/// A NaN by its bits, as many digits as its kind has.
fn nan(f: &mut Formatter<'_>, Literal { kind, bits }: Literal) -> fmt::Result {
    let digits = match kind {
        Kind::F16 => 4,
        Kind::F32 => 8,
        _ => 16,
    };
    write!(f, "nan(0x{bits:0digits$x})")
}
