use crate::{
    record::{self, below, write_u16, write_u8, Reader, Record, DEPTH},
    ty::read_kind,
    Kind, Literal, Malformed, Type,
};

/// A value.
#[derive(Clone, Debug, PartialEq, Eq, Hash)]
pub enum Value {
    /// A scalar.
    Scalar(Literal),
    /// A vector: 2 to 4 components of one kind.
    Vector(Vec<Literal>),
    /// A matrix: its 2 to 4 columns, each of the same 2 to 4 rows, of one kind.
    Matrix(Vec<Vec<Literal>>),
    /// An array: its elements, at least one, of one type.
    Array(Vec<Value>),
    /// A struct.
    Struct {
        /// The identity of its type.
        identity: u16,
        /// The members in order.
        members: Vec<Value>,
    },
}

impl Value {
    /// A vector of these components: `Value::vector([0.5, 2.0])` is one of AbstractFloat, `Value::vector([1u32, 2])`
    /// one of U32.
    pub fn vector(components: impl IntoIterator<Item = impl Into<Literal>>) -> Value {
        Value::Vector(literals(components))
    }

    /// A matrix of these columns: `Value::matrix([[1f32, 0.0], [0.0, 1.0]])`.
    pub fn matrix(columns: impl IntoIterator<Item = impl IntoIterator<Item = impl Into<Literal>>>) -> Value {
        Value::Matrix(columns.into_iter().map(literals).collect())
    }

    /// An array of these elements: `Value::array([1180.5, 4400.25])`.
    pub fn array(elements: impl IntoIterator<Item = impl Into<Value>>) -> Value {
        Value::Array(elements.into_iter().map(Into::into).collect())
    }

    /// A struct of these members: `Value::structure(1, [0.5.into(), Value::vector([1f32, 2.0])])`.
    pub fn structure(identity: u16, members: impl IntoIterator<Item = Value>) -> Value {
        Value::Struct { identity, members: members.into_iter().collect() }
    }

    /// All its scalars in order.
    pub fn literals(&self) -> Vec<Literal> {
        let mut all = Vec::new();
        self.gather(&mut all);
        all
    }

    fn gather(&self, all: &mut Vec<Literal>) {
        match self {
            Value::Scalar(literal) => all.push(*literal),
            Value::Vector(components) => all.extend(components),
            Value::Matrix(columns) => all.extend(columns.iter().flatten()),
            Value::Array(parts) | Value::Struct { members: parts, .. } => {
                parts.iter().for_each(|part| part.gather(all))
            }
        }
    }

    /// The literal of a scalar.
    fn literal(&self) -> Option<Literal> {
        match self {
            Value::Scalar(literal) => Some(*literal),
            _ => None,
        }
    }

    /// The record. An error only where there is none: deeper than 15, or more parts than their count can say.
    /// Otherwise the tree is written as it is, and the library judges it.
    pub fn encode(&self) -> Result<Vec<u8>, Malformed> {
        record::encode(self)
    }

    /// The value of a well-formed record; an error for any other bytes.
    pub fn decode(bytes: &[u8]) -> Result<Value, Malformed> {
        record::decode(bytes)
    }

    /// The values of well-formed records one after another.
    pub fn decode_list(bytes: &[u8]) -> Result<Vec<Value>, Malformed> {
        record::decode_list(bytes)
    }

    /// The value's one type; an error where the value isn't well formed and so has none.
    pub fn ty(&self) -> Result<Type, Malformed> {
        let ty = self.typed(DEPTH).and_then(|ty| ty.check().map(|()| ty));
        ty.map_err(|why| Malformed::new(0, why))
    }

    /// The type by its parts. The numbers in it are not judged here, but those that it leaves out are.
    fn typed(&self, levels: u8) -> Result<Type, &'static str> {
        let under = |by| levels.checked_sub(by).ok_or("deeper than 15");
        match self {
            Value::Scalar(literal) => Ok(Type::Scalar(one_kind([literal])?)),
            Value::Vector(components) => {
                under(1)?;
                Ok(Type::Vector { n: small(components.len()), kind: one_kind(components)? })
            }
            Value::Matrix(columns) => {
                under(2)?;
                let rows = columns.first().map_or(0, Vec::len);
                if columns.iter().any(|column| column.len() != rows) {
                    return Err("a matrix of columns of different lengths");
                }
                let kind = one_kind(columns.iter().flatten())?;
                Ok(Type::Matrix { columns: small(columns.len()), rows: small(rows), kind })
            }
            Value::Array(elements) => {
                let levels = under(1)?;
                let count = u16::try_from(elements.len()).map_err(|_| "more than 65,535 elements")?;
                let mut types = elements.iter().map(|element| element.typed(levels));
                let first = types.next().ok_or("an array without elements")??;
                for ty in types {
                    if ty? != first {
                        return Err("elements of different types");
                    }
                }
                Ok(Type::array(count, first))
            }
            Value::Struct { identity, members } => {
                let levels = under(1)?;
                let members = members.iter().map(|member| member.typed(levels)).collect::<Result<_, _>>()?;
                Ok(Type::Struct { identity: *identity, members })
            }
        }
    }
}

/// What [`Literal`] reads back, of a value that is one.
macro_rules! read_back {
    ($($name:ident as $number:ident;)+) => {
        impl Value {
            $(
                #[doc = concat!("[`Literal::", stringify!($name), "`] of a scalar; none of any other value.")]
                pub fn $name(&self) -> Option<$number> {
                    self.literal()?.$name()
                }
            )+
        }
    };
}

read_back! {
    as_bool as bool;
    as_abstract_int as i64;
    as_abstract_float as f64;
    as_i32 as i32;
    as_u32 as u32;
    as_f32 as f32;
    as_f16 as u16;
    as_f64 as f64;
    as_i64 as i64;
}

fn literals(components: impl IntoIterator<Item = impl Into<Literal>>) -> Vec<Literal> {
    components.into_iter().map(Into::into).collect()
}

/// A length as a byte; 0, which is no side, for one that is too long for a byte and so no side either.
fn small(length: usize) -> u8 {
    u8::try_from(length).unwrap_or(0)
}

/// The kind that all the literals have, each with a payload that it can have.
fn one_kind<'a>(literals: impl IntoIterator<Item = &'a Literal>) -> Result<Kind, &'static str> {
    let mut kind = None;
    for literal in literals {
        if literal.bits > largest(literal.kind) {
            return Err("a payload that the kind can't have");
        }
        if *kind.get_or_insert(literal.kind) != literal.kind {
            return Err("components of different kinds");
        }
    }
    kind.ok_or("a vector without components")
}

/// The largest payload: the bits above are zero.
fn largest(kind: Kind) -> u64 {
    match kind {
        Kind::Bool => 1,
        Kind::AbstractInt | Kind::AbstractFloat => u64::MAX,
        Kind::I32 | Kind::U32 | Kind::F32 => u32::MAX.into(),
        Kind::F16 => u16::MAX.into(),
    }
}

impl From<Literal> for Value {
    fn from(literal: Literal) -> Value {
        Value::Scalar(literal)
    }
}

impl Record for Value {
    fn write(&self, out: &mut Vec<u8>, levels: u8) -> Result<(), Malformed> {
        let at = out.len();
        match self {
            Value::Scalar(literal) => write_literal(out, literal),
            Value::Vector(components) => {
                below(levels, 1, at)?;
                write_vector(out, components)?;
            }
            Value::Matrix(columns) => {
                below(levels, 2, at)?;
                out.extend(b"Vm");
                write_u8(out, columns.len())?;
                write_u8(out, columns.first().map_or(0, Vec::len))?;
                columns.iter().try_for_each(|column| write_vector(out, column))?;
            }
            Value::Array(elements) => {
                let levels = below(levels, 1, at)?;
                out.extend(b"Va");
                write_u16(out, elements.len())?;
                elements.iter().try_for_each(|element| element.write(out, levels))?;
            }
            Value::Struct { identity, members } => {
                let levels = below(levels, 1, at)?;
                out.extend(b"Vu");
                out.extend(identity.to_le_bytes());
                write_u16(out, members.len())?;
                members.iter().try_for_each(|member| member.write(out, levels))?;
            }
        }
        Ok(())
    }

    fn read(reader: &mut Reader<'_>, levels: u8) -> Result<Value, Malformed> {
        let at = reader.at();
        Ok(match &reader.take()? {
            b"Vs" => Value::Scalar(read_payload(reader)?),
            b"Vv" => {
                below(levels, 1, at)?;
                let n = reader.u8()?;
                Value::Vector(read_components(reader, n)?)
            }
            b"Vm" => {
                below(levels, 2, at)?;
                let (columns, rows) = (reader.u8()?, reader.u8()?);
                Value::Matrix((0..columns).map(|_| read_column(reader, rows)).collect::<Result<_, _>>()?)
            }
            b"Va" => {
                let levels = below(levels, 1, at)?;
                Value::Array(read_values(reader, levels)?)
            }
            b"Vu" => {
                let levels = below(levels, 1, at)?;
                Value::Struct { identity: reader.u16()?, members: read_values(reader, levels)? }
            }
            _ => return Err(Malformed::new(at, "not the mark of a value")),
        })
    }

    fn check(&self) -> Result<(), &'static str> {
        self.typed(DEPTH)?.check()
    }
}

fn write_literal(out: &mut Vec<u8>, literal: &Literal) {
    out.extend([b'V', b's', literal.kind.number()]);
    out.extend(literal.bits.to_le_bytes());
}

fn write_vector(out: &mut Vec<u8>, components: &[Literal]) -> Result<(), Malformed> {
    out.extend(b"Vv");
    write_u8(out, components.len())?;
    components.iter().for_each(|literal| write_literal(out, literal));
    Ok(())
}

fn read_values(reader: &mut Reader<'_>, levels: u8) -> Result<Vec<Value>, Malformed> {
    (0..reader.u16()?).map(|_| Value::read(reader, levels)).collect()
}

fn read_column(reader: &mut Reader<'_>, rows: u8) -> Result<Vec<Literal>, Malformed> {
    reader.mark(b"Vv")?;
    let at = reader.at();
    if reader.u8()? != rows {
        return Err(Malformed::new(at, "a column of another length than the matrix says"));
    }
    read_components(reader, rows)
}

fn read_components(reader: &mut Reader<'_>, n: u8) -> Result<Vec<Literal>, Malformed> {
    (0..n)
        .map(|_| {
            reader.mark(b"Vs")?;
            read_payload(reader)
        })
        .collect()
}

fn read_payload(reader: &mut Reader<'_>) -> Result<Literal, Malformed> {
    Ok(Literal { kind: read_kind(reader)?, bits: reader.u64()? })
}
