use crate::{
    record::{self, below, write_u16, Reader, Record, TYPE_LENGTH},
    Kind, Malformed,
};

/// A type. Two types are equal exactly when their records are.
#[derive(Clone, Debug, PartialEq, Eq, Hash)]
pub enum Type {
    /// A scalar.
    Scalar(Kind),
    /// A vector.
    Vector {
        /// Its length, 2 to 4.
        n: u8,
        /// The kind of its components.
        kind: Kind,
    },
    /// A matrix.
    Matrix {
        /// How many columns, 2 to 4.
        columns: u8,
        /// How many rows, 2 to 4: the length of each column.
        rows: u8,
        /// The kind of its components: AbstractFloat, F32 or F16.
        kind: Kind,
    },
    /// An array of counted elements.
    Array {
        /// How many, from 1 on.
        count: u16,
        /// The type of each.
        element: Box<Type>,
    },
    /// A struct.
    Struct {
        /// Stands for name, member names and attributes.
        identity: u16,
        /// The types of the members in order, 1 to 1,023 of them.
        members: Vec<Type>,
    },
}

impl Type {
    /// `bool`
    pub const BOOL: Type = Type::Scalar(Kind::Bool);
    /// The type of whole numbers that have none yet.
    pub const ABSTRACT_INT: Type = Type::Scalar(Kind::AbstractInt);
    /// The type of floats that have none yet.
    pub const ABSTRACT_FLOAT: Type = Type::Scalar(Kind::AbstractFloat);
    /// `i32`
    pub const I32: Type = Type::Scalar(Kind::I32);
    /// `u32`
    pub const U32: Type = Type::Scalar(Kind::U32);
    /// `f32`
    pub const F32: Type = Type::Scalar(Kind::F32);
    /// `f16`
    pub const F16: Type = Type::Scalar(Kind::F16);

    /// A vector type.
    pub const fn vector(n: u8, kind: Kind) -> Type {
        Type::Vector { n, kind }
    }

    /// A matrix type.
    pub const fn matrix(columns: u8, rows: u8, kind: Kind) -> Type {
        Type::Matrix { columns, rows, kind }
    }

    /// An array type.
    pub fn array(count: u16, element: Type) -> Type {
        Type::Array { count, element: Box::new(element) }
    }

    /// A struct type.
    pub fn structure(identity: u16, members: impl IntoIterator<Item = Type>) -> Type {
        Type::Struct { identity, members: members.into_iter().collect() }
    }

    /// The record. An error only where there is none: deeper than 15, or a number that its field can't hold.
    /// Otherwise the tree is written as it is, and the library judges it.
    pub fn encode(&self) -> Result<Vec<u8>, Malformed> {
        record::encode(self)
    }

    /// The type of a well-formed record; an error for any other bytes.
    pub fn decode(bytes: &[u8]) -> Result<Type, Malformed> {
        record::decode(bytes)
    }

    /// The types of well-formed records one after another.
    pub fn decode_list(bytes: &[u8]) -> Result<Vec<Type>, Malformed> {
        record::decode_list(bytes)
    }

    /// The record's length.
    pub(crate) fn length(&self) -> usize {
        match self {
            Type::Scalar(_) => 3,
            Type::Vector { .. } => 6,
            Type::Matrix { .. } => 7,
            Type::Array { element, .. } => 4 + element.length(),
            Type::Struct { members, .. } => 6 + members.iter().map(Type::length).sum::<usize>(),
        }
    }

    /// The length of the record of a value of this type, as far as a `usize` goes. The type is not too deep to have a
    /// record.
    pub(crate) fn value_length(&self) -> usize {
        match self {
            Type::Scalar(_) => LITERAL,
            Type::Vector { n, .. } => vector_length(*n),
            Type::Matrix { columns, rows, .. } => matrix_length(*columns, *rows),
            Type::Array { count, element } => array_length(element.value_length().saturating_mul((*count).into())),
            Type::Struct { members, .. } => {
                members.iter().fold(6, |length, member| length.saturating_add(member.value_length()))
            }
        }
    }

    /// The numbers of every part are in range.
    pub(crate) fn shaped(&self) -> Result<(), &'static str> {
        match self {
            Type::Scalar(_) => Ok(()),
            Type::Vector { n, .. } => side(*n),
            Type::Matrix { columns, rows, kind } => {
                side(*columns)?;
                side(*rows)?;
                is_float(*kind).then_some(()).ok_or("a matrix that isn't of floats")
            }
            Type::Array { count: 0, .. } => Err("an array without elements"),
            Type::Array { element, .. } => element.shaped(),
            Type::Struct { members, .. } if !(1..=1023).contains(&members.len()) => {
                Err("a struct of no members, or of more than 1,023")
            }
            Type::Struct { members, .. } => members.iter().try_for_each(Type::shaped),
        }
    }
}

impl From<Kind> for Type {
    fn from(kind: Kind) -> Type {
        Type::Scalar(kind)
    }
}

/// Whether a matrix can have the kind.
fn is_float(kind: Kind) -> bool {
    matches!(kind, Kind::AbstractFloat | Kind::F32 | Kind::F16)
}

/// The length of a literal's record.
const LITERAL: usize = 11;

pub(crate) fn vector_length(n: u8) -> usize {
    3 + usize::from(n) * LITERAL
}

pub(crate) fn matrix_length(columns: u8, rows: u8) -> usize {
    4 + usize::from(columns) * vector_length(rows)
}

/// The length of an array's record whose elements have some length in all.
pub(crate) fn array_length(elements: usize) -> usize {
    elements.saturating_add(4)
}

/// "2, 3 or 4"
pub(crate) fn side(n: u8) -> Result<(), &'static str> {
    (2..=4).contains(&n).then_some(()).ok_or("a vector or matrix whose sides aren't 2 to 4")
}

impl Record for Type {
    fn write(&self, out: &mut Vec<u8>, levels: u8) -> Result<(), Malformed> {
        let at = out.len();
        match self {
            Type::Scalar(kind) => out.extend([b'T', b's', kind.number()]),
            Type::Vector { n, kind } => {
                below(levels, 1, at)?;
                out.extend([b'T', b'v', *n, b'T', b's', kind.number()]);
            }
            Type::Matrix { columns, rows, kind } => {
                below(levels, 2, at)?;
                out.extend([b'T', b'm', *columns, *rows, b'T', b's', kind.number()]);
            }
            Type::Array { count, element } => {
                out.extend(b"Ta");
                out.extend(count.to_le_bytes());
                element.write(out, below(levels, 1, at)?)?;
            }
            Type::Struct { identity, members } => {
                let levels = below(levels, 1, at)?;
                out.extend(b"Tu");
                out.extend(identity.to_le_bytes());
                write_u16(out, members.len())?;
                members.iter().try_for_each(|member| member.write(out, levels))?;
            }
        }
        Ok(())
    }

    fn read(reader: &mut Reader<'_>, levels: u8) -> Result<Type, Malformed> {
        let at = reader.at();
        Ok(match &reader.take()? {
            b"Ts" => Type::Scalar(read_kind(reader)?),
            b"Tv" => {
                below(levels, 1, at)?;
                Type::Vector { n: reader.u8()?, kind: read_scalar(reader)? }
            }
            b"Tm" => {
                below(levels, 2, at)?;
                Type::Matrix { columns: reader.u8()?, rows: reader.u8()?, kind: read_scalar(reader)? }
            }
            b"Ta" => {
                let levels = below(levels, 1, at)?;
                Type::array(reader.u16()?, Type::read(reader, levels)?)
            }
            b"Tu" => {
                let levels = below(levels, 1, at)?;
                let identity = reader.u16()?;
                let members = (0..reader.u16()?).map(|_| Type::read(reader, levels)).collect::<Result<_, _>>()?;
                Type::Struct { identity, members }
            }
            _ => return Err(Malformed::new(at, "not the mark of a type")),
        })
    }

    fn check(&self) -> Result<(), &'static str> {
        self.shaped()?;
        (self.length() <= TYPE_LENGTH).then_some(()).ok_or("a type of more than 4,096 bytes")
    }
}

fn read_scalar(reader: &mut Reader<'_>) -> Result<Kind, Malformed> {
    reader.mark(b"Ts")?;
    read_kind(reader)
}

pub(crate) fn read_kind(reader: &mut Reader<'_>) -> Result<Kind, Malformed> {
    let at = reader.at();
    Kind::try_from(reader.u8()?).map_err(|malformed| malformed.after(at))
}
