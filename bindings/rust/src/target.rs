use crate::{
    record::{Reader, Record, DEPTH, TYPE_LENGTH},
    ty::{array_length, matrix_length, side, vector_length},
    Malformed, Type,
};

/// What a constructor is to make.
#[derive(Clone, Debug, PartialEq, Eq, Hash)]
pub enum Target {
    /// A type.
    Type(Type),
    /// A runtime-sized array of this element type: the count is that of the arguments.
    Runtime(Type),
    /// `array` without a template.
    Array,
    /// `vecN` without a template.
    Vector(u8),
    /// `matCxR` without a template: columns, rows.
    Matrix(u8, u8),
}

impl Target {
    /// The record. An error only where there is none: deeper than 15, or more members than their count can say.
    /// Otherwise the tree is written as it is, and the library judges it.
    pub fn encode(&self) -> Result<Vec<u8>, Malformed> {
        match self {
            Target::Type(ty) => ty.encode(),
            Target::Runtime(element) => {
                let mut out = b"Tr".to_vec();
                element.write(&mut out, DEPTH - 1)?;
                Ok(out)
            }
            Target::Array => Ok(b"Qa".to_vec()),
            Target::Vector(n) => Ok(vec![b'Q', b'v', *n]),
            Target::Matrix(columns, rows) => Ok(vec![b'Q', b'm', *columns, *rows]),
        }
    }

    /// The length of the record that an accepted call makes of arguments of some length in all. A conversion changes
    /// kinds, and with them no lengths.
    pub(crate) fn result_length(&self, args: usize) -> usize {
        match self {
            Target::Type(ty) => ty.value_length(),
            Target::Runtime(_) | Target::Array => array_length(args),
            Target::Vector(n) => vector_length(*n),
            Target::Matrix(columns, rows) => matrix_length(*columns, *rows),
        }
    }

    /// The target of a well-formed record; an error for any other bytes.
    pub fn decode(bytes: &[u8]) -> Result<Target, Malformed> {
        let mut reader = Reader::new(bytes);
        let target = match &reader.take()? {
            b"Tr" => Target::Runtime(Type::read(&mut reader, DEPTH - 1)?),
            b"Qa" => Target::Array,
            b"Qv" => Target::Vector(reader.u8()?),
            b"Qm" => Target::Matrix(reader.u8()?, reader.u8()?),
            _ => return Type::decode(bytes).map(Target::Type),
        };
        reader.end()?;
        let checked = match &target {
            // Building makes a counted array of it, whose record is two bytes longer.
            Target::Runtime(_) if bytes.len() > TYPE_LENGTH - 2 => {
                Err("a runtime-sized array of more than 4,094 bytes")
            }
            Target::Runtime(element) => element.shaped(),
            Target::Vector(n) => side(*n),
            Target::Matrix(columns, rows) => side(*columns).and(side(*rows)),
            Target::Type(_) | Target::Array => Ok(()),
        };
        checked.map_err(|why| Malformed::new(0, why))?;
        Ok(target)
    }
}

impl From<Type> for Target {
    fn from(ty: Type) -> Target {
        Target::Type(ty)
    }
}
