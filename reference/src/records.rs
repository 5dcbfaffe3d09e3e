//! Byte records of document 01: read into the source's types and values, and written back.
//!
//! Reading checks the form of a record. The limits on depth and length, which the Rust does not
//! have, stand in `within_limits` and are kept by the generator.

use crate::{
    Instance, Type, f16,
    inst::{ArrayInstance, LiteralInstance, MatInstance, StructInstance, VecInstance},
    ty::{StructMemberType, StructType, Ty},
};

/// What a call is aimed at: a type, or one of the three untemplated shapes.
#[derive(Clone, Debug, PartialEq)]
pub enum Target {
    Type(Type),
    Array,
    Vec(u8),
    Mat(u8, u8),
}

// ------
// SCALAR KINDS
// ------

/// The scalar kinds in the order of their numbers.
pub const KINDS: [Type; 7] =
    [Type::Bool, Type::AbstractInt, Type::AbstractFloat, Type::I32, Type::U32, Type::F32, Type::F16];

pub fn kind_type(kind: u8) -> Option<Type> {
    KINDS.get(kind as usize).cloned()
}

pub fn type_kind(ty: &Type) -> Option<u8> {
    KINDS.iter().position(|k| k == ty).map(|k| k as u8)
}

fn is_float_kind(kind: u8) -> bool {
    matches!(kind, 2 | 5 | 6)
}

/// A literal's kind and its payload bits.
pub fn literal_bits(l: &LiteralInstance) -> (u8, u64) {
    match l {
        LiteralInstance::Bool(n) => (0, *n as u64),
        LiteralInstance::AbstractInt(n) => (1, *n as u64),
        LiteralInstance::AbstractFloat(n) => (2, n.to_bits()),
        LiteralInstance::I32(n) => (3, *n as u32 as u64),
        LiteralInstance::U32(n) => (4, *n as u64),
        LiteralInstance::F32(n) => (5, n.to_bits() as u64),
        LiteralInstance::F16(n) => (6, n.to_bits() as u64),
    }
}

/// The literal of a kind with the given bits, if the unused high bits are zero.
pub fn literal(kind: u8, bits: u64) -> Option<LiteralInstance> {
    Some(match kind {
        0 if bits < 2 => LiteralInstance::Bool(bits == 1),
        1 => LiteralInstance::AbstractInt(bits as i64),
        2 => LiteralInstance::AbstractFloat(f64::from_bits(bits)),
        3 => LiteralInstance::I32(u32::try_from(bits).ok()? as i32),
        4 => LiteralInstance::U32(u32::try_from(bits).ok()?),
        5 => LiteralInstance::F32(f32::from_bits(u32::try_from(bits).ok()?)),
        6 => LiteralInstance::F16(f16::from_bits(u16::try_from(bits).ok()?)),
        _ => return None,
    })
}

// -------
// STRUCTS
// -------

/// A struct type. The identity stands for the name; member names follow from their places.
pub fn struct_type(identity: u16, members: Vec<Type>) -> StructType {
    let named = |(i, ty)| StructMemberType::new(format!("m{i}"), ty);
    StructType { name: format!("s{identity}"), members: members.into_iter().enumerate().map(named).collect() }
}

fn identity(ty: &StructType) -> Option<u16> {
    ty.name.strip_prefix('s')?.parse().ok()
}

// -------
// READING
// -------

struct Reader<'a> {
    bytes: &'a [u8],
}

impl<'a> Reader<'a> {
    fn take(&mut self, n: usize) -> Option<&'a [u8]> {
        let (front, rest) = self.bytes.split_at_checked(n)?;
        self.bytes = rest;
        Some(front)
    }
    fn byte(&mut self) -> Option<u8> {
        self.take(1).map(|b| b[0])
    }
    fn u16(&mut self) -> Option<u16> {
        self.take(2).map(|b| u16::from_le_bytes([b[0], b[1]]))
    }
    fn size(&mut self) -> Option<u8> {
        self.byte().filter(|n| (2..=4).contains(n))
    }
    fn count(&mut self) -> Option<usize> {
        self.u16().filter(|n| *n > 0).map(usize::from)
    }
    fn members(&mut self) -> Option<usize> {
        self.count().filter(|n| *n <= 1023)
    }

    fn ty(&mut self) -> Option<Type> {
        match self.take(2)? {
            b"Ts" => kind_type(self.byte()?),
            b"Tv" => {
                let n = self.size()?;
                Some(Type::Vec(n, self.scalar_type()?.into()))
            }
            b"Tm" => {
                let (c, r) = (self.size()?, self.size()?);
                let ty = self.scalar_type()?;
                ty.is_float().then(|| Type::Mat(c, r, ty.into()))
            }
            b"Ta" => {
                let n = self.count()?;
                Some(Type::Array(self.ty()?.into(), Some(n)))
            }
            b"Tu" => {
                let (identity, n) = (self.u16()?, self.members()?);
                let members = (0..n).map(|_| self.ty()).collect::<Option<Vec<_>>>()?;
                Some(struct_type(identity, members).into())
            }
            _ => None,
        }
    }

    fn scalar_type(&mut self) -> Option<Type> {
        self.ty().filter(Type::is_scalar)
    }

    fn target(&mut self) -> Option<Target> {
        match self.bytes.get(..2)? {
            b"Qa" => self.take(2).map(|_| Target::Array),
            b"Qv" => {
                self.take(2)?;
                self.size().map(Target::Vec)
            }
            b"Qm" => {
                self.take(2)?;
                Some(Target::Mat(self.size()?, self.size()?))
            }
            b"Tr" => {
                self.take(2)?;
                Some(Target::Type(Type::Array(self.ty()?.into(), None)))
            }
            _ => self.ty().map(Target::Type),
        }
    }

    fn value(&mut self) -> Option<Instance> {
        match self.take(2)? {
            b"Vs" => self.literal().map(Instance::Literal),
            b"Vv" => {
                let n = self.size()?;
                let parts = self.equal_values(n as usize)?;
                parts[0].ty().is_scalar().then(|| VecInstance::new(parts).into())
            }
            b"Vm" => {
                let (c, r) = (self.size()?, self.size()?);
                let columns = self.equal_values(c as usize)?;
                is_column(&columns[0].ty(), r).then(|| MatInstance::from_cols(columns).into())
            }
            b"Va" => {
                let n = self.count()?;
                Some(ArrayInstance::new(self.equal_values(n)?, false).into())
            }
            b"Vu" => {
                let (identity, n) = (self.u16()?, self.members()?);
                let members = self.some_values(n)?;
                let types = members.iter().map(|m| m.ty()).collect();
                Some(StructInstance::new(struct_type(identity, types), members).into())
            }
            _ => None,
        }
    }

    fn literal(&mut self) -> Option<LiteralInstance> {
        let kind = self.byte()?;
        let payload = self.take(8)?.try_into().ok()?;
        literal(kind, u64::from_le_bytes(payload))
    }

    fn some_values(&mut self, n: usize) -> Option<Vec<Instance>> {
        (0..n).map(|_| self.value()).collect()
    }

    fn equal_values(&mut self, n: usize) -> Option<Vec<Instance>> {
        let values = self.some_values(n)?;
        let ty = values[0].ty();
        values.iter().all(|v| v.ty() == ty).then_some(values)
    }

    fn whole<T>(mut self, read: impl Fn(&mut Self) -> Option<T>) -> Option<T> {
        let result = read(&mut self)?;
        self.bytes.is_empty().then_some(result)
    }

    fn list<T>(mut self, read: impl Fn(&mut Self) -> Option<T>) -> Option<Vec<T>> {
        let mut all = Vec::new();
        while !self.bytes.is_empty() {
            all.push(read(&mut self)?);
        }
        Some(all)
    }
}

fn is_column(ty: &Type, r: u8) -> bool {
    matches!(ty, Type::Vec(n, k) if *n == r && type_kind(k).is_some_and(is_float_kind))
}

pub fn read_target(bytes: &[u8]) -> Option<Target> {
    Reader { bytes }.whole(Reader::target)
}

pub fn read_types(bytes: &[u8]) -> Option<Vec<Type>> {
    Reader { bytes }.list(Reader::ty)
}

pub fn read_values(bytes: &[u8]) -> Option<Vec<Instance>> {
    Reader { bytes }.list(Reader::value)
}

// -------
// WRITING
// -------

fn write_u16(n: usize, out: &mut Vec<u8>) -> Option<()> {
    out.extend(u16::try_from(n).ok()?.to_le_bytes());
    Some(())
}

/// Appends a type's record; `None` for a type that has none.
pub fn write_type(ty: &Type, out: &mut Vec<u8>) -> Option<()> {
    match ty {
        Type::Vec(n, inner) => {
            out.extend([b'T', b'v', *n]);
            write_type(inner, out)
        }
        Type::Mat(c, r, inner) => {
            out.extend([b'T', b'm', *c, *r]);
            write_type(inner, out)
        }
        Type::Array(inner, Some(n)) => {
            out.extend(b"Ta");
            write_u16(*n, out)?;
            write_type(inner, out)
        }
        Type::Array(inner, None) => {
            out.extend(b"Tr");
            write_type(inner, out)
        }
        Type::Struct(s) => {
            out.extend(b"Tu");
            write_u16(identity(s)? as usize, out)?;
            write_u16(s.members.len(), out)?;
            s.members.iter().try_for_each(|m| write_type(&m.ty, out))
        }
        _ => {
            out.extend([b'T', b's', type_kind(ty)?]);
            Some(())
        }
    }
}

/// Appends a value's record; `None` for a value that has none.
pub fn write_value(value: &Instance, out: &mut Vec<u8>) -> Option<()> {
    match value {
        Instance::Literal(l) => {
            let (kind, bits) = literal_bits(l);
            out.extend([b'V', b's', kind]);
            out.extend(bits.to_le_bytes());
            Some(())
        }
        Instance::Vec(v) => {
            out.extend([b'V', b'v', v.n() as u8]);
            v.iter().try_for_each(|c| write_value(c, out))
        }
        Instance::Mat(m) => {
            out.extend([b'V', b'm', m.c() as u8, m.r() as u8]);
            m.iter_cols().try_for_each(|c| write_value(c, out))
        }
        Instance::Array(a) => {
            out.extend(b"Va");
            write_u16(a.n(), out)?;
            a.iter().try_for_each(|c| write_value(c, out))
        }
        Instance::Struct(s) => {
            out.extend(b"Vu");
            write_u16(identity(&s.ty)? as usize, out)?;
            write_u16(s.members.len(), out)?;
            s.members.iter().try_for_each(|m| write_value(m, out))
        }
        _ => None,
    }
}

pub fn write_target(target: &Target, out: &mut Vec<u8>) -> Option<()> {
    match target {
        Target::Type(ty) => return write_type(ty, out),
        Target::Array => out.extend(b"Qa"),
        Target::Vec(n) => out.extend([b'Q', b'v', *n]),
        Target::Mat(c, r) => out.extend([b'Q', b'm', *c, *r]),
    }
    Some(())
}

// ------
// LIMITS
// ------

/// Depth as document 01 counts it.
pub fn depth(ty: &Type) -> usize {
    match ty {
        Type::Vec(..) => 1,
        Type::Mat(..) => 2,
        Type::Array(inner, _) => 1 + depth(inner),
        Type::Struct(s) => 1 + s.members.iter().map(|m| depth(&m.ty)).max().unwrap_or(0),
        _ => 0,
    }
}

fn length(ty: &Type) -> usize {
    let mut out = Vec::new();
    write_type(ty, &mut out).map_or(usize::MAX, |_| out.len())
}

/// Whether target and argument types keep document 01's limits.
pub fn within_limits(target: &Target, args: &[Type]) -> bool {
    let (deepest, longest) = match target {
        Target::Array => (14, 4092),
        _ => (15, 4096),
    };
    args.len() <= 65535
        && target_within_limits(target)
        && args.iter().all(|a| depth(a) <= deepest && length(a) <= longest)
}

fn target_within_limits(target: &Target) -> bool {
    match target {
        Target::Type(ty @ Type::Array(_, None)) => depth(ty) <= 15 && length(ty) <= 4094,
        Target::Type(ty) => depth(ty) <= 15 && length(ty) <= 4096,
        _ => true,
    }
}

// --------
// LITERALS
// --------

/// Calls `each` on every literal of a value, in the order of the record.
pub fn for_each_literal(value: &Instance, each: &mut impl FnMut(&LiteralInstance)) {
    match value {
        Instance::Literal(l) => each(l),
        Instance::Vec(v) => v.iter().for_each(|c| for_each_literal(c, each)),
        Instance::Mat(m) => m.iter_cols().for_each(|c| for_each_literal(c, each)),
        Instance::Array(a) => a.iter().for_each(|c| for_each_literal(c, each)),
        Instance::Struct(s) => s.members.iter().for_each(|m| for_each_literal(m, each)),
        _ => {}
    }
}

/// The same value with every literal replaced by one of the same kind.
pub fn map_literals(value: &Instance, map: &impl Fn(&LiteralInstance) -> LiteralInstance) -> Instance {
    let all = |parts: &mut dyn Iterator<Item = &Instance>| parts.map(|p| map_literals(p, map)).collect::<Vec<_>>();
    match value {
        Instance::Literal(l) => Instance::Literal(map(l)),
        Instance::Vec(v) => VecInstance::new(all(&mut v.iter())).into(),
        Instance::Mat(m) => MatInstance::from_cols(all(&mut m.iter_cols())).into(),
        Instance::Array(a) => ArrayInstance::new(all(&mut a.iter()), a.runtime_sized).into(),
        Instance::Struct(s) => StructInstance::new(s.ty.clone(), all(&mut s.members.iter())).into(),
        other => other.clone(),
    }
}
