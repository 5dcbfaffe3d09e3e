//! Types, targets and values.

use core::fmt::{self, Display, Formatter};

use super::Bare;
use crate::{Kind, Literal, Target, Type, Value};

impl Display for Type {
    /// `f32`, `vec3<f32>`, `mat4x3<f16>`, `array<f32, 3>`. A struct has no name here but its identity: `Struct1`.
    fn fmt(&self, f: &mut Formatter<'_>) -> fmt::Result {
        match self {
            Type::Scalar(kind) => write!(f, "{kind}"),
            Type::Vector { n, kind } => write!(f, "vec{n}<{kind}>"),
            Type::Matrix { columns, rows, kind } => write!(f, "mat{columns}x{rows}<{kind}>"),
            Type::Array { count, element } => write!(f, "array<{element}, {count}>"),
            Type::Struct { identity, .. } => write!(f, "Struct{identity}"),
        }
    }
}

impl Display for Target {
    /// A type, `array<f32>` for a runtime-sized array, or `array`, `vec3`, `mat3x2` without a template.
    fn fmt(&self, f: &mut Formatter<'_>) -> fmt::Result {
        match self {
            Target::Type(ty) => write!(f, "{ty}"),
            Target::Runtime(element) => write!(f, "array<{element}>"),
            Target::Array => f.write_str("array"),
            Target::Vector(n) => write!(f, "vec{n}"),
            Target::Matrix(columns, rows) => write!(f, "mat{columns}x{rows}"),
        }
    }
}

impl Display for Value {
    /// A scalar as its [`Literal`]; anything else as the call that makes it: `vec3<f32>(0.0, 6204.75, 12410.0)`,
    /// `mat2x2<f32>(vec2<f32>(1.0, 2.0), vec2<f32>(3.0, 4.0))`, `array<i32, 2>(1, 2)`,
    /// `Struct1(0.508f, vec2<u32>(1, 2))`. Where a template says the kind, literals have no suffix.
    ///
    /// WGSL can't name abstract types, so what is abstract has no template: `vec3(0.0, 1.5, 2.0)`. Nor has a value that
    /// isn't well formed and so has no type; there every literal has its suffix.
    fn fmt(&self, f: &mut Formatter<'_>) -> fmt::Result {
        // Worked out here alone: the types of all parts are in it.
        let ty = self.ty().ok();
        written(f, self, ty.as_ref())
    }
}

/// A value, with its type where it has one.
fn written(f: &mut Formatter<'_>, value: &Value, ty: Option<&Type>) -> fmt::Result {
    let named = ty.filter(|ty| has_name(ty));
    let part_type = |at| named.and_then(|ty| part(ty, at));
    match value {
        Value::Scalar(literal) => write!(f, "{literal}"),
        Value::Vector(components) => vector(f, components, named.and_then(kind)),
        Value::Matrix(columns) => matrix(f, columns, named.and_then(kind)),
        Value::Array(elements) => {
            match named {
                Some(ty) => write!(f, "{ty}")?,
                None => f.write_str("array")?,
            }
            listed(f, elements, |f, at, element| match element {
                Value::Scalar(literal) => scalar(f, *literal, named.is_some()),
                _ => written(f, element, part_type(at)),
            })
        }
        Value::Struct { identity, members } => {
            write!(f, "Struct{identity}")?;
            listed(f, members, |f, at, member| written(f, member, part_type(at)))
        }
    }
}

fn matrix(f: &mut Formatter<'_>, columns: &[Vec<Literal>], kind: Option<Kind>) -> fmt::Result {
    write!(f, "mat{}x{}", columns.len(), columns.first().map_or(0, Vec::len))?;
    template(f, kind)?;
    listed(f, columns, |f, _, column| vector(f, column, kind))
}

fn vector(f: &mut Formatter<'_>, components: &[Literal], kind: Option<Kind>) -> fmt::Result {
    write!(f, "vec{}", components.len())?;
    template(f, kind)?;
    listed(f, components, |f, _, literal| scalar(f, *literal, kind.is_some()))
}

fn template(f: &mut Formatter<'_>, kind: Option<Kind>) -> fmt::Result {
    kind.map_or(Ok(()), |kind| write!(f, "<{kind}>"))
}

fn scalar(f: &mut Formatter<'_>, literal: Literal, in_template: bool) -> fmt::Result {
    if in_template {
        write!(f, "{}", Bare(literal))
    } else {
        write!(f, "{literal}")
    }
}

/// The parts in parentheses, each with its place.
fn listed<T>(
    f: &mut Formatter<'_>,
    parts: &[T],
    mut one: impl FnMut(&mut Formatter<'_>, usize, &T) -> fmt::Result,
) -> fmt::Result {
    f.write_str("(")?;
    for (at, part) in parts.iter().enumerate() {
        if at > 0 {
            f.write_str(", ")?;
        }
        one(f, at, part)?;
    }
    f.write_str(")")
}

/// Whether WGSL can name the type: it has no name for the abstract kinds.
fn has_name(ty: &Type) -> bool {
    match ty {
        Type::Scalar(kind) | Type::Vector { kind, .. } | Type::Matrix { kind, .. } => {
            !matches!(kind, Kind::AbstractInt | Kind::AbstractFloat)
        }
        Type::Array { element, .. } => has_name(element),
        Type::Struct { .. } => true,
    }
}

/// The kind of a vector's or a matrix's components.
fn kind(ty: &Type) -> Option<Kind> {
    match ty {
        Type::Vector { kind, .. } | Type::Matrix { kind, .. } => Some(*kind),
        _ => None,
    }
}

/// The type of an array's or a struct's part.
fn part(ty: &Type, at: usize) -> Option<&Type> {
    match ty {
        Type::Array { element, .. } => Some(element),
        Type::Struct { members, .. } => members.get(at),
        _ => None,
    }
}
