//! Values in WGSL's memory layout, for a storage buffer.

use std::slice::from_ref;

use crate::{
    layout_of_bytes,
    owned::{args_bytes, value_of},
    read_layout_bytes, write_layout_bytes, Refusal, Type, Value,
};

/// How values of a type lie in memory, in bytes.
#[derive(Clone, Debug, PartialEq, Eq, Hash)]
pub struct Layout {
    /// How many bytes a value takes, its padding among them.
    pub size: u64,
    /// A value begins at a multiple of this.
    pub align: u64,
    /// Of a struct, where each member begins, counted from the struct's first byte; empty for any other type.
    pub members: Vec<u64>,
}

impl Type {
    /// How values of the type lie in WGSL's memory layout. Refused are a type that holds a Bool or an abstract kind
    /// (25), and one whose size is past 64 bits (22).
    ///
    /// ```
    /// use vireodesk::{Kind, Layout, Type};
    ///
    /// let pig = Type::structure(1, [Type::F32, Type::vector(3, Kind::F32), Type::F32]);
    /// assert_eq!(pig.layout(), Ok(Layout { size: 32, align: 16, members: vec![0, 16, 28] }));
    /// ```
    pub fn layout(&self) -> Result<Layout, Refusal> {
        let (size, align) = self.extent()?;
        let members = match self {
            Type::Struct { members, .. } => offsets(members)?,
            _ => Vec::new(),
        };
        Ok(Layout { size, align, members })
    }

    /// The size and the alignment.
    fn extent(&self) -> Result<(u64, u64), Refusal> {
        layout_of_bytes(&args_bytes(from_ref(self)))
    }
}

/// Where the members of a struct begin, whose own size is known to be within 64 bits: each at the next multiple of its
/// alignment.
fn offsets(members: &[Type]) -> Result<Vec<u64>, Refusal> {
    let mut end = 0u64;
    let mut offset = |member: &Type| {
        let (size, align) = member.extent()?;
        let at = end.next_multiple_of(align);
        end = at + size;
        Ok(at)
    };
    members.iter().map(&mut offset).collect()
}

impl Value {
    /// The value as it lies in WGSL's memory layout: just as many bytes as [`Type::layout`] says for its type, padding
    /// zero. Refused are a value that isn't well formed (2), and one that holds a Bool or an abstract kind (25).
    ///
    /// ```
    /// use vireodesk::Value;
    ///
    /// let chainage = Value::vector([0.5f32, 2.0, -0.0]);
    /// assert_eq!(chainage.to_memory().unwrap(), [0, 0, 0, 0x3F, 0, 0, 0, 0x40, 0, 0, 0, 0x80]);
    /// let two = Value::array([chainage.clone(), chainage]);
    /// assert_eq!(two.to_memory().unwrap().len(), 32);
    /// ```
    pub fn to_memory(&self) -> Result<Vec<u8>, Refusal> {
        // A value without a type or without a layout is refused whatever the room. The size is that of bytes to be
        // made, not past a usize: the value itself takes more.
        let size = self.ty().ok().and_then(|ty| ty.extent().ok()).map_or(0, |(size, _)| size as usize);
        let mut memory = vec![0; size];
        write_layout_bytes(&args_bytes(from_ref(self)), &mut memory)?;
        Ok(memory)
    }

    /// The value of a type that lies in memory; what its padding holds makes no difference. Refused are a type that
    /// isn't well formed (1) or holds a Bool or an abstract kind (25), and memory of another length than the type's
    /// size (26).
    ///
    /// ```
    /// use vireodesk::{Kind, Refusal, Type, Value};
    ///
    /// let vec2 = Type::vector(2, Kind::U32);
    /// assert_eq!(Value::from_memory(&vec2, &[7, 0, 0, 0, 1, 1, 0, 0]), Ok(Value::vector([7u32, 257])));
    /// assert_eq!(Value::from_memory(&vec2, &[7]), Err(Refusal::MemorySize));
    /// ```
    pub fn from_memory(ty: &Type, memory: &[u8]) -> Result<Value, Refusal> {
        // Only where the size is the memory's own is there a record, and its length follows from the type; else any
        // room will do.
        let fits = ty.extent().is_ok_and(|(size, _)| size == memory.len() as u64);
        let mut record = vec![0; if fits { ty.value_length() } else { 0 }];
        read_layout_bytes(&args_bytes(from_ref(ty)), memory, &mut record)?;
        Ok(value_of(&record))
    }
}
