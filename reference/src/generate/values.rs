//! Types and values by short names, for the two generators.

use crate::{
    Instance, Type,
    inst::{ArrayInstance, LiteralInstance, MatInstance, StructInstance, VecInstance},
    records::{KINDS, literal, struct_type, type_kind},
};

pub const BOOL: u8 = 0;
pub const INT: u8 = 1;
pub const FLOAT: u8 = 2;
pub const I32: u8 = 3;
pub const U32: u8 = 4;
pub const F32: u8 = 5;
pub const F16: u8 = 6;

pub fn scalar_type(kind: u8) -> Type {
    KINDS[kind as usize].clone()
}

pub fn vec_type(n: u8, kind: u8) -> Type {
    Type::Vec(n, scalar_type(kind).into())
}

pub fn mat_type(c: u8, r: u8, kind: u8) -> Type {
    Type::Mat(c, r, scalar_type(kind).into())
}

pub fn array_type(n: usize, inner: Type) -> Type {
    Type::Array(inner.into(), Some(n))
}

pub fn runtime_type(inner: Type) -> Type {
    Type::Array(inner.into(), None)
}

pub fn struct_of(identity: u16, members: Vec<Type>) -> Type {
    struct_type(identity, members).into()
}

pub fn bits(kind: u8, bits: u64) -> Instance {
    Instance::Literal(literal(kind, bits).expect("literal"))
}

/// A literal of a kind whose value fits every numeric kind. Different `n` below 1000 give
/// different literals of a numeric kind.
pub fn plain(kind: u8, n: usize) -> LiteralInstance {
    let n = n % 1000;
    match kind {
        BOOL => LiteralInstance::Bool(n % 2 == 1),
        INT => LiteralInstance::AbstractInt(n as i64),
        FLOAT => LiteralInstance::AbstractFloat(n as f64 * 0.5),
        I32 => LiteralInstance::I32(n as i32),
        U32 => LiteralInstance::U32(n as u32),
        F32 => LiteralInstance::F32(n as f32 * 0.5),
        _ => LiteralInstance::F16(crate::f16::from_f32(n as f32 * 0.5)),
    }
}

/// A value of a type, its literals made by `make` from their kind.
pub fn value_of(ty: &Type, make: &mut impl FnMut(u8) -> LiteralInstance) -> Instance {
    match ty {
        Type::Vec(n, inner) => VecInstance::new(copies(*n as usize, inner, make)).into(),
        Type::Mat(c, r, inner) => {
            let column = Type::Vec(*r, inner.clone());
            MatInstance::from_cols(copies(*c as usize, &column, make)).into()
        }
        Type::Array(inner, n) => ArrayInstance::new(copies(n.unwrap_or(1), inner, make), false).into(),
        Type::Struct(s) => {
            let members = s.members.iter().map(|m| value_of(&m.ty, make)).collect();
            StructInstance::new((**s).clone(), members).into()
        }
        _ => Instance::Literal(make(type_kind(ty).expect("scalar"))),
    }
}

fn copies(n: usize, ty: &Type, make: &mut impl FnMut(u8) -> LiteralInstance) -> Vec<Instance> {
    (0..n).map(|_| value_of(ty, make)).collect()
}

/// Values of the given types with plain literals, all different in their order.
pub fn plain_values(types: &[Type]) -> Vec<Instance> {
    let mut n = 0;
    let mut next = |kind| {
        n += 1;
        plain(kind, n)
    };
    types.iter().map(|ty| value_of(ty, &mut next)).collect()
}

pub fn plain_value(ty: &Type) -> Instance {
    plain_values(std::slice::from_ref(ty)).remove(0)
}

/// The same type with every scalar kind outside of structs replaced.
pub fn with_kind(ty: &Type, kind: u8) -> Type {
    map_kinds(ty, &|_| kind)
}

/// The same type with the scalar kinds outside of structs mapped. A matrix keeps its kind where
/// the new one is no float.
pub fn map_kinds(ty: &Type, map: &impl Fn(u8) -> u8) -> Type {
    match ty {
        Type::Vec(n, inner) => Type::Vec(*n, map_kinds(inner, map).into()),
        Type::Mat(c, r, inner) => match map_kinds(inner, map) {
            new if new.is_float() => Type::Mat(*c, *r, new.into()),
            _ => ty.clone(),
        },
        Type::Array(inner, n) => Type::Array(map_kinds(inner, map).into(), *n),
        Type::Struct(_) => ty.clone(),
        _ => scalar_type(map(type_kind(ty).expect("scalar"))),
    }
}

/// How many literals a value of the type has, at most `usize::MAX`.
pub fn literal_count(ty: &Type) -> usize {
    match ty {
        Type::Vec(n, _) => *n as usize,
        Type::Mat(c, r, _) => *c as usize * *r as usize,
        Type::Array(inner, n) => n.unwrap_or(1).saturating_mul(literal_count(inner)),
        Type::Struct(s) => s.members.iter().fold(0, |sum, m| literal_count(&m.ty).saturating_add(sum)),
        _ => 1,
    }
}
