//! WGSL's memory layout: its own table and structs, values to memory and back, and what is refused.
#![cfg(feature = "std")]

use vireodesk::*;

/// What a buffer holds before a call.
const FILL: u8 = 0xA5;

/// The kinds that have a layout, and those that a matrix can have.
const KINDS: [Kind; 4] = [Kind::I32, Kind::U32, Kind::F32, Kind::F16];
const FLOATS: [Kind; 2] = [Kind::F32, Kind::F16];

fn layout(size: u64, align: u64, members: &[u64]) -> Result<Layout, Refusal> {
    Ok(Layout { size, align, members: members.to_vec() })
}

/// Literals one after another, no two alike: each byte of a payload tells the literal's number, or its place in the
/// literal.
struct Counter(u64);

impl Counter {
    fn literal(&mut self, kind: Kind) -> Literal {
        self.0 += 1;
        let bits = 0x8000_0080 | (self.0 & 0x7F) | (self.0 >> 7) << 8;
        Literal { kind, bits: if kind == Kind::F16 { bits & 0xFFFF } else { bits & 0xFFFF_FFFF } }
    }

    fn literals(&mut self, n: u8, kind: Kind) -> Vec<Literal> {
        (0..n).map(|_| self.literal(kind)).collect()
    }

    fn value(&mut self, ty: &Type) -> Value {
        match ty {
            Type::Scalar(kind) => self.literal(*kind).into(),
            Type::Vector { n, kind } => Value::vector(self.literals(*n, *kind)),
            Type::Matrix { columns, rows, kind } => Value::matrix((0..*columns).map(|_| self.literals(*rows, *kind))),
            Type::Array { count, element } => Value::array((0..*count).map(|_| self.value(element))),
            Type::Struct { identity, members } => {
                Value::structure(*identity, members.iter().map(|member| self.value(member)))
            }
        }
    }
}

fn value_of(ty: &Type) -> Value {
    Counter(0).value(ty)
}

/// The bytes of a 32-bit or 16-bit literal.
fn bytes_of(literal: Literal) -> Vec<u8> {
    literal.bits.to_le_bytes()[..if literal.kind == Kind::F16 { 2 } else { 4 }].to_vec()
}

/// The bytes of literals at their places, zero elsewhere.
fn at_places(size: usize, places: &[(usize, Literal)]) -> Vec<u8> {
    let mut memory = vec![0; size];
    for (at, literal) in places {
        let bytes = bytes_of(*literal);
        memory[*at..at + bytes.len()].copy_from_slice(&bytes);
    }
    memory
}

/// The type's value lies with its literals at these places, and is read back from there whatever the padding holds.
fn lies_at(ty: &Type, places: &[usize]) {
    let value = value_of(ty);
    let literals = value.literals();
    assert_eq!(literals.len(), places.len(), "{ty:?}");
    let size = ty.layout().unwrap().size as usize;
    let due = at_places(size, &places.iter().copied().zip(literals.iter().copied()).collect::<Vec<_>>());
    assert_eq!(value.to_memory().unwrap(), due, "{ty:?}");
    let mut padded = due.clone();
    let used = at_places(size, &places.iter().map(|at| (*at, full(literals[0].kind))).collect::<Vec<_>>());
    for (byte, used) in padded.iter_mut().zip(&used) {
        *byte |= !used;
    }
    for memory in [due, padded] {
        assert_eq!(Value::from_memory(ty, &memory).as_ref(), Ok(&value), "{ty:?}");
    }
}

/// A literal whose bits are all set.
fn full(kind: Kind) -> Literal {
    Literal { kind, bits: if kind == Kind::F16 { 0xFFFF } else { 0xFFFF_FFFF } }
}

#[test]
fn wgsls_table() {
    // Alignment and size of a vector by its length, in 32 bits and in f16; a scalar has length 1.
    for (n, align, size, half_align, half_size) in
        [(1, 4, 4, 2, 2), (2, 8, 8, 4, 4), (3, 16, 12, 8, 6), (4, 16, 16, 8, 8)]
    {
        for kind in KINDS {
            let ty = if n == 1 { Type::Scalar(kind) } else { Type::vector(n, kind) };
            let (size, align) = if kind == Kind::F16 { (half_size, half_align) } else { (size, align) };
            assert_eq!(ty.layout(), layout(size, align, &[]), "{ty:?}");
            lies_at(&ty, &(0..usize::from(n)).map(|i| i * size as usize / usize::from(n)).collect::<Vec<_>>());
        }
    }
    // Of matrices: columns, rows, alignment and size in 32 bits, the same in f16, and how far columns are apart.
    let matrices = [
        (2, 2, 8, 16, 4, 8, 8),
        (3, 2, 8, 24, 4, 12, 8),
        (4, 2, 8, 32, 4, 16, 8),
        (2, 3, 16, 32, 8, 16, 16),
        (3, 3, 16, 48, 8, 24, 16),
        (4, 3, 16, 64, 8, 32, 16),
        (2, 4, 16, 32, 8, 16, 16),
        (3, 4, 16, 48, 8, 24, 16),
        (4, 4, 16, 64, 8, 32, 16),
    ];
    for (columns, rows, align, size, half_align, half_size, apart) in matrices {
        for kind in FLOATS {
            let ty = Type::matrix(columns, rows, kind);
            let half = kind == Kind::F16;
            let (size, align) = if half { (half_size, half_align) } else { (size, align) };
            let (apart, scalar) = if half { (apart / 2, 2) } else { (apart, 4) };
            assert_eq!(ty.layout(), layout(size, align, &[]), "{ty:?}");
            let places = (0..usize::from(columns)).flat_map(|c| (0..usize::from(rows)).map(move |r| (c, r)));
            lies_at(&ty, &places.map(|(c, r)| c * apart + r * scalar).collect::<Vec<_>>());
        }
    }
}

#[test]
fn arrays() {
    assert_eq!(Type::array(7, Type::F32).layout(), layout(28, 4, &[]));
    assert_eq!(Type::array(5, Type::vector(3, Kind::F32)).layout(), layout(80, 16, &[]));
    assert_eq!(Type::array(3, Type::vector(3, Kind::F16)).layout(), layout(24, 8, &[]));
    assert_eq!(Type::array(2, Type::matrix(3, 3, Kind::F32)).layout(), layout(96, 16, &[]));
    assert_eq!(
        Type::array(1, Type::structure(7, [Type::vector(3, Kind::F32), Type::F32])).layout(),
        layout(16, 16, &[])
    );
    lies_at(&Type::array(3, Type::F16), &[0, 2, 4]);
    lies_at(&Type::array(2, Type::vector(3, Kind::I32)), &[0, 4, 8, 16, 20, 24]);
    lies_at(&Type::array(2, Type::structure(7, [Type::U32, Type::vector(2, Kind::U32)])), &[0, 8, 12, 16, 24, 28]);
}

#[test]
fn the_structs_that_wgsl_works_out() {
    let a = Type::structure(7, [Type::F32, Type::F32, Type::vector(2, Kind::F32), Type::F32]);
    assert_eq!(a.layout(), layout(24, 8, &[0, 4, 8, 16]));
    lies_at(&a, &[0, 4, 8, 12, 16]);

    let (vec2, vec3) = (Type::vector(2, Kind::F32), Type::vector(3, Kind::F32));
    let b =
        Type::structure(7, [vec2, vec3.clone(), Type::F32, Type::F32, a.clone(), vec3, Type::array(3, a), Type::I32]);
    assert_eq!(b.layout(), layout(160, 16, &[0, 16, 28, 32, 40, 64, 80, 152]));
    let mut places = vec![0, 4, 16, 20, 24, 28, 32, 40, 44, 48, 52, 56, 64, 68, 72];
    places.extend([80, 84, 88, 92, 96, 104, 108, 112, 116, 120, 128, 132, 136, 140, 144, 152]);
    lies_at(&b, &places);
}

/// Types of every shape in one another, drawn from a seed.
struct Draw(u64);

impl Draw {
    fn below(&mut self, n: u64) -> u64 {
        self.0 = self.0.wrapping_mul(6364136223846793005).wrapping_add(1442695040888963407);
        (self.0 >> 33) % n
    }

    fn ty(&mut self, depth: u8) -> Type {
        let (n, rows, kind) = (2 + self.below(3) as u8, 2 + self.below(3) as u8, KINDS[self.below(4) as usize]);
        match self.below(if depth < 3 { u64::from(depth) + 1 } else { 6 }) {
            0 => Type::Scalar(kind),
            1 => Type::vector(n, kind),
            2 => Type::matrix(n, rows, FLOATS[self.below(2) as usize]),
            3 => Type::array(1 + self.below(4) as u16, self.ty(depth - 1)),
            _ => {
                let members: Vec<_> = (0..=self.below(4)).map(|_| self.ty(depth - 1)).collect();
                Type::structure(self.below(65536) as u16, members)
            }
        }
    }
}

/// Each part lies where it lies alone: a member at its offset, an element at a multiple of the stride; all else is
/// zero.
fn made_of_parts(ty: &Type, value: &Value) -> Vec<u8> {
    let layout = ty.layout().unwrap();
    let mut memory = vec![0; layout.size as usize];
    let mut lay = |at: u64, part: &Value| {
        let bytes = part.to_memory().unwrap();
        memory[at as usize..at as usize + bytes.len()].copy_from_slice(&bytes);
    };
    match (ty, value) {
        (Type::Struct { .. }, Value::Struct { members: parts, .. }) => {
            assert_eq!(layout.members.len(), parts.len());
            layout.members.iter().zip(parts).for_each(|(at, part)| lay(*at, part));
        }
        (Type::Array { count, .. }, Value::Array(parts)) => {
            let stride = layout.size / u64::from(*count);
            (0..).zip(parts).for_each(|(i, part)| lay(i * stride, part));
        }
        _ => return value.to_memory().unwrap(),
    }
    memory
}

#[test]
fn values_return() {
    let mut draw = Draw(1);
    for case in 0..3000 {
        let ty = draw.ty((case % 8) as u8);
        let value = Counter(case).value(&ty);
        let memory = value.to_memory().unwrap();
        assert_eq!(memory.len() as u64, ty.layout().unwrap().size);
        assert_eq!(memory, made_of_parts(&ty, &value), "{ty:?}");
        assert_eq!(Value::from_memory(&ty, &memory).as_ref(), Ok(&value), "{ty:?}");
        // Any bytes are a value; written again they differ in the padding alone, which is zero then.
        let drawn: Vec<u8> = memory.iter().map(|_| draw.below(256) as u8).collect();
        let read = Value::from_memory(&ty, &drawn).unwrap();
        let again = read.to_memory().unwrap();
        assert!(again.iter().zip(&drawn).all(|(a, d)| a == d || *a == 0), "{ty:?}");
        assert_eq!(Value::from_memory(&ty, &again), Ok(read));
    }
}

#[test]
fn bits_stay() {
    for bits in [0x7F80_0001u32, 0xFFC1_2345, 0x7FC0_0000, 0x8000_0000, 1, 0x7F80_0000] {
        let literal = Literal { kind: Kind::F32, bits: bits.into() };
        assert_eq!(Value::from(literal).to_memory().unwrap(), bits.to_le_bytes());
        assert_eq!(Value::from_memory(&Type::F32, &bits.to_le_bytes()), Ok(literal.into()));
    }
    for bits in [0x7C01u16, 0xFE55, 0x7E00, 0x8000, 1, 0x7C00] {
        assert_eq!(Value::from(Literal::f16(bits)).to_memory().unwrap(), bits.to_le_bytes());
        assert_eq!(Value::from_memory(&Type::F16, &bits.to_le_bytes()), Ok(Literal::f16(bits).into()));
    }
    assert_eq!(Value::from(-2i32).to_memory().unwrap(), [0xFE, 0xFF, 0xFF, 0xFF]);
}

#[test]
fn long_values() {
    let station = Type::structure(7, [Type::vector(3, Kind::F32), Type::F32, Type::vector(2, Kind::F32), Type::U32]);
    for ty in
        [Type::array(60_000, Type::F32), Type::array(20_000, Type::vector(3, Kind::F32)), Type::array(10_000, station)]
    {
        let value = value_of(&ty);
        let memory = value.to_memory().unwrap();
        assert_eq!(memory.len() as u64, ty.layout().unwrap().size);
        assert!(Value::from_memory(&ty, &memory) == Ok(value));
    }
    // A struct of 1,023 members, and a nest of depth 15.
    let wide = Type::structure(7, vec![Type::F16; 1023]);
    assert_eq!(wide.layout().unwrap().members, (0..1023).map(|i| 2 * i).collect::<Vec<_>>());
    lies_at(&wide, &(0..1023).map(|i| 2 * i).collect::<Vec<_>>());
    let nest = (0..15).fold(Type::F32, |inner, _| Type::structure(7, [inner]));
    assert_eq!(nest.layout(), layout(4, 4, &[0]));
    lies_at(&nest, &[0]);
}

/// The values of a kind without a layout: alone and inside others.
fn without_layout(literal: Literal) -> Vec<Value> {
    let alone = Value::from(literal);
    let pair = Value::vector([literal; 2]);
    let last = Value::structure(0, [1f32.into(), alone.clone()]);
    let deep = (0..6).fold(last.clone(), |inner, _| Value::array([inner]));
    vec![alone, pair.clone(), Value::array(vec![pair; 3]), last, deep]
}

#[test]
fn a_type_without_a_layout() {
    for literal in [true.into(), 1i64.into(), Literal::from(1.0)] {
        for value in without_layout(literal) {
            let ty = value.ty().unwrap();
            assert_eq!((value.to_memory(), ty.layout()), (Err(Refusal::NoLayout), Err(Refusal::NoLayout)), "{ty:?}");
            for length in [0, 1, 4, 8, 100] {
                assert_eq!(Value::from_memory(&ty, &vec![0; length]), Err(Refusal::NoLayout), "{ty:?}");
            }
        }
    }
    assert_eq!(Type::matrix(2, 2, Kind::AbstractFloat).layout(), Err(Refusal::NoLayout));
}

#[test]
fn memory_of_another_length() {
    let ty = Type::structure(7, [Type::F32, Type::vector(3, Kind::F16)]);
    let size = ty.layout().unwrap().size as usize;
    for length in (0..=2 * size).filter(|length| *length != size) {
        assert_eq!(Value::from_memory(&ty, &vec![0; length]), Err(Refusal::MemorySize), "{length} bytes");
    }
}

#[test]
fn trees_that_are_not_well_formed() {
    let ragged = Value::matrix([vec![1f32; 2], vec![1f32; 3]]);
    let mixed = Value::array([Literal::f32(1.0), Literal::i32(1)]);
    let deep = (0..16).fold(Value::from(1f32), |inner, _| Value::array([inner]));
    let bool_of_two = Value::from(Literal { kind: Kind::Bool, bits: 2 });
    for value in [ragged, mixed, deep, bool_of_two, Value::Vector(vec![]), Value::Array(vec![])] {
        assert_eq!(value.to_memory(), Err(Refusal::BadArgument), "{value:?}");
    }
    let deep = (0..16).fold(Type::F32, |element, _| Type::array(1, element));
    for ty in [
        deep,
        Type::vector(5, Kind::F32),
        Type::matrix(2, 2, Kind::I32),
        Type::array(0, Type::F32),
        Type::structure(7, []),
    ] {
        assert_eq!(ty.layout(), Err(Refusal::BadTarget), "{ty:?}");
        assert_eq!(Value::from_memory(&ty, &[]), Err(Refusal::BadTarget), "{ty:?}");
    }
}

/// Sizes past 64 bits, also where nothing is left of them in 64 bits: no slice has them, and no room is made for them.
#[test]
fn sizes_past_64_bits() {
    let nest = |depth: usize, count, leaf: &Type| (0..depth).fold(leaf.clone(), |part, _| Type::array(count, part));
    assert_eq!(nest(3, 65535, &Type::F32).layout(), layout(1_125_848_368_021_500, 4, &[]));
    assert_eq!(nest(4, 32768, &Type::vector(2, Kind::F32)).layout(), layout(1 << 63, 8, &[]));
    for vast in [nest(4, 65535, &Type::F32), nest(14, 65535, &Type::F32), nest(4, 32768, &Type::vector(4, Kind::F32))] {
        assert_eq!(vast.layout(), Err(Refusal::NoRoom));
        assert_eq!(Type::structure(7, [Type::F32, vast.clone()]).layout(), Err(Refusal::NoRoom));
        for length in [0, 4, 16, 4096] {
            assert_eq!(Value::from_memory(&vast, &vec![0; length]), Err(Refusal::MemorySize));
        }
    }
    // A size that is within 64 bits and past any slice.
    assert_eq!(Value::from_memory(&nest(3, 65535, &Type::F32), &[0; 64]), Err(Refusal::MemorySize));
}

#[test]
fn over_bytes() {
    let ty = Type::structure(7, [Type::F32, Type::vector(3, Kind::F32), Type::F16]);
    let (target, value) = (ty.encode().unwrap(), value_of(&ty));
    let record = value.encode().unwrap();
    assert_eq!(layout_of_bytes(&target), Ok((32, 16)));
    let memory = value.to_memory().unwrap();

    let written = |room: usize| {
        let mut out = vec![FILL; room];
        (write_layout_bytes(&record, &mut out), out)
    };
    let read = |room: usize| {
        let mut out = vec![FILL; room];
        (read_layout_bytes(&target, &memory, &mut out), out)
    };
    for more in [0, 1, 100] {
        assert_eq!(written(32 + more), (Ok(32), [&memory[..], &vec![FILL; more]].concat()));
        assert_eq!(read(record.len() + more), (Ok(record.len()), [&record[..], &vec![FILL; more]].concat()));
    }
    for room in [31, 1, 0] {
        assert_eq!(written(room), (Err(Refusal::NoRoom), vec![FILL; room]));
        assert_eq!(read(room), (Err(Refusal::NoRoom), vec![FILL; room]));
    }
}

#[test]
fn over_bytes_that_are_refused() {
    let mut out = [FILL; 64];
    let two = b"Vs\x05\0\0\0\0\0\0\0\0".repeat(2);
    for args in [b"", &two[..], &two[..10], &two[..12]] {
        assert_eq!(write_layout_bytes(args, &mut out), Err(Refusal::BadArgument));
    }
    for room in [&mut out[..], &mut []] {
        assert_eq!(write_layout_bytes(b"Vs\0\0\0\0\0\0\0\0\0", room), Err(Refusal::NoLayout));
    }
    // A shape is no type, a runtime-sized array has no layout.
    let shapes = [&b""[..], b"Qa", b"Qv\x02", b"Qm\x02\x02"].map(|target| (target, Refusal::BadTarget));
    let without = [&b"TrTs\x05"[..], b"Ts\x00"].map(|target| (target, Refusal::NoLayout));
    for (target, due) in shapes.into_iter().chain(without) {
        assert_eq!(layout_of_bytes(target), Err(due));
        assert_eq!(read_layout_bytes(target, b"1234", &mut out), Err(due));
    }
    // 25, then 26, then 22.
    assert_eq!(read_layout_bytes(b"Ts\x00", b"", &mut []), Err(Refusal::NoLayout));
    assert_eq!(read_layout_bytes(b"Ts\x05", b"", &mut []), Err(Refusal::MemorySize));
    assert_eq!(read_layout_bytes(b"Ts\x05", b"1234", &mut []), Err(Refusal::NoRoom));
    assert_eq!(out, [FILL; 64]);
}
