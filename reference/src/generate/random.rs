//! Random calls: mostly ones that are meant to be accepted, about half of them then changed in
//! one place.

use super::{edges, prng::Prng, values::*};
use crate::{
    Instance, Type,
    call::{Call, Entry},
    inst::LiteralInstance,
    records::{Target, literal, type_kind, within_limits, write_value},
    ty::Ty,
};

pub fn is_nan(l: &LiteralInstance) -> bool {
    match l {
        LiteralInstance::AbstractFloat(n) => n.is_nan(),
        LiteralInstance::F32(n) => n.is_nan(),
        LiteralInstance::F16(n) => n.is_nan(),
        _ => false,
    }
}

/// One well-formed call within the limits.
pub fn call(rng: &mut Prng) -> Call {
    if rng.below(1000) == 0 {
        return long_list(rng);
    }
    if rng.chance(12) {
        return one_literal(rng);
    }
    let room = if rng.chance(94) { 150 } else { 600 };
    loop {
        let mut maker = Maker::new(rng);
        let entry = maker.entry();
        if let Some(call) = maker.call(entry, room) {
            return call;
        }
    }
}

/// A literal at an edge or with random bits, to a scalar constructor or converted.
fn one_literal(rng: &mut Prng) -> Call {
    let mut maker = Maker { rng, edges: 100 };
    let from = maker.rng.pick(&[INT, INT, FLOAT, FLOAT, FLOAT, I32, U32, F32, F32, F16]);
    let arg = Instance::Literal(maker.literal(from));
    if matches!(from, INT | FLOAT) && maker.rng.chance(45) {
        let target = maker.rng.pick(if from == INT { &[FLOAT, I32, U32, F32, F16][..] } else { &[F32, F16] });
        return Call::convert(&scalar_type(target), &arg);
    }
    let target = maker.rng.pick(&[BOOL, I32, U32, F32, F32, F16, F16]);
    Call::build(maker.rng.below(3) as u8, &Target::Type(scalar_type(target)), &[arg])
}

/// Typing of a vector of so many parts that their total passes 255, or comes near.
fn long_list(rng: &mut Prng) -> Call {
    let kinds = rng.pick(&[[F32, F32], [I32, INT], [F32, F16]]);
    let mut args: Vec<Type> = (0..rng.from_to(62, 65)).map(|_| vec_type(4, kinds[0])).collect();
    for _ in 0..rng.below(4) {
        let kind = if rng.chance(80) { kinds[0] } else { kinds[1] };
        args.push(if rng.chance(50) { scalar_type(kind) } else { vec_type(rng.from_to(2, 4) as u8, kind) });
    }
    let n = rng.from_to(2, 4) as u8;
    let target = if rng.chance(50) { Target::Vec(n) } else { Target::Type(vec_type(n, kinds[0])) };
    Call::typing(&target, &args)
}

struct Maker<'a> {
    rng: &'a mut Prng,
    /// Out of 100 literals, how many stand at an edge or have random bits.
    edges: usize,
}

impl Maker<'_> {
    fn new(rng: &mut Prng) -> Maker<'_> {
        let edges = rng.pick(&[0, 5, 25, 80]);
        Maker { rng, edges }
    }

    fn entry(&mut self) -> Entry {
        match self.rng.below(100) {
            0..52 => Entry::CallCtor,
            52..78 => Entry::TypeCtor,
            78..92 => Entry::ConvertTo,
            _ => Entry::ConversionRank,
        }
    }

    /// A call, unless its records are too large or past a limit.
    fn call(&mut self, entry: Entry, room: usize) -> Option<Call> {
        let (target, args) = match entry {
            Entry::CallCtor | Entry::TypeCtor => self.constructor(),
            _ => self.conversion(),
        };
        let types: Vec<Type> = args.iter().map(|a| a.ty()).collect();
        let small = value_bytes(&args) <= room && (!args.is_empty() || zero_is_small(&target));
        if !small || !within_limits(&target, &types) {
            return None;
        }
        Some(match (entry, &target) {
            (Entry::CallCtor, _) => Call::build(self.rng.below(3) as u8, &target, &args),
            (Entry::TypeCtor, _) => Call::typing(&self.grown(target), &types),
            (Entry::ConvertTo, Target::Type(ty)) => Call::convert(ty, &args[0]),
            (Entry::ConversionRank, Target::Type(ty)) => Call::rank(ty, &types[0]),
            _ => return None,
        })
    }

    /// For typing, which does not count a counted array's arguments: at times another count.
    fn grown(&mut self, target: Target) -> Target {
        match target {
            Target::Type(Type::Array(inner, Some(_))) if self.rng.chance(20) => {
                Target::Type(Type::Array(inner, Some(self.rng.pick(&[1, 2, 255, 256, 65535]))))
            }
            other => other,
        }
    }

    // --------
    // LITERALS
    // --------

    fn literal(&mut self, kind: u8) -> LiteralInstance {
        if !self.rng.chance(self.edges) {
            return self.simple(kind);
        }
        let bits = match self.rng.chance(65) {
            true => self.rng.pick(edges::bits(kind)),
            false => self.bits(kind),
        };
        literal(kind, bits).expect("literal")
    }

    /// A literal that fits every numeric kind (negative ones: all but u32).
    fn simple(&mut self, kind: u8) -> LiteralInstance {
        let n = self.rng.below(200);
        match plain(kind, n) {
            LiteralInstance::I32(n) if self.rng.chance(30) => LiteralInstance::I32(-n),
            LiteralInstance::F32(n) if self.rng.chance(30) => LiteralInstance::F32(-n),
            LiteralInstance::AbstractFloat(n) if self.rng.chance(30) => LiteralInstance::AbstractFloat(-n),
            other => other,
        }
    }

    fn bits(&mut self, kind: u8) -> u64 {
        let any = self.rng.next();
        match kind {
            0 => any & 1,
            1 => self.integer_bits(any),
            2 => self.float_bits(any),
            3 | 4 => (self.integer_bits(any) as u32) as u64,
            5 => any & 0xFFFFFFFF,
            _ => any & 0xFFFF,
        }
    }

    /// Integers of every length, at times with few one bits.
    fn integer_bits(&mut self, any: u64) -> u64 {
        let shift = self.rng.below(64);
        let sparse = if self.rng.chance(30) { 1u64 << (63 - shift) } else { 0 };
        let magnitude = (any >> shift >> 1) | sparse >> 1;
        if self.rng.chance(30) { magnitude.wrapping_neg() } else { magnitude }
    }

    /// Floats around the ranges of f32 and f16, with fractions near their ties.
    fn float_bits(&mut self, any: u64) -> u64 {
        let exponent = match self.rng.below(6) {
            0 => any >> 52 & 0x7FF,
            1 => 1023 - 152 + self.rng.below(30) as u64,
            2 => 1023 + 120 + self.rng.below(10) as u64,
            3 => 1023 - 27 + self.rng.below(16) as u64,
            4 => 1023 + 10 + self.rng.below(8) as u64,
            _ => 1023 + self.rng.below(34) as u64,
        };
        let fraction = match self.rng.below(4) {
            0 => any & 0xFFFFFFFFFFFFF,
            1 => (any & 0xFFFFFE0000000) | 0x10000000,
            2 => (any & 0xFFC0000000000) | 0x20000000000,
            _ => (any & 0xFFC0000000000) | 0x20000000000 | 1 << self.rng.below(40),
        };
        (any >> 63 << 63) | exponent << 52 | fraction
    }

    fn value(&mut self, ty: &Type) -> Instance {
        value_of(ty, &mut |kind| self.literal(kind))
    }

    fn values(&mut self, types: &[Type]) -> Vec<Instance> {
        types.iter().map(|ty| self.value(ty)).collect()
    }

    // -----
    // TYPES
    // -----

    fn kind(&mut self) -> u8 {
        self.rng.below(7) as u8
    }

    fn size(&mut self) -> u8 {
        self.rng.from_to(2, 4) as u8
    }

    fn float(&mut self) -> u8 {
        self.rng.pick(&[FLOAT, F32, F16])
    }

    /// A type with at most `levels` of arrays and structs around scalars, vectors, matrices.
    fn ty(&mut self, levels: usize) -> Type {
        match self.rng.below(if levels == 0 { 10 } else { 16 }) {
            0..5 => scalar_type(self.kind()),
            5..8 => vec_type(self.size(), self.kind()),
            8..10 => mat_type(self.rng.pick(&[2, 2, 3, 4]), self.rng.pick(&[2, 2, 3, 4]), self.float()),
            10..13 => array_type(self.rng.from_to(1, 3), self.ty(levels - 1)),
            _ => self.structure(levels - 1),
        }
    }

    fn structure(&mut self, levels: usize) -> Type {
        let n = self.rng.from_to(1, 3);
        let members = (0..n).map(|_| self.ty(levels)).collect();
        struct_of(self.rng.pick(&[0, 1, 2, 300, 65535]), members)
    }

    /// A kind that converts to the given one.
    fn source_kind(&mut self, kind: u8) -> u8 {
        match kind {
            I32 | U32 | FLOAT => self.rng.pick(&[kind, kind, INT]),
            F32 | F16 => self.rng.pick(&[kind, kind, FLOAT, INT]),
            other => other,
        }
    }

    /// A type that converts to the given one.
    fn source_type(&mut self, ty: &Type) -> Type {
        let chosen: Vec<u8> = (0..7).map(|k| self.source_kind(k)).collect();
        map_kinds(ty, &|k| chosen[k as usize])
    }

    // ------------
    // CONSTRUCTORS
    // ------------

    fn constructor(&mut self) -> (Target, Vec<Instance>) {
        let target = self.target();
        if self.rng.chance(4) {
            return (target, Vec::new());
        }
        let types = self.arguments(&target);
        let args = self.values(&types);
        if self.rng.chance(42) {
            return (target, args);
        }
        self.changed(target, args)
    }

    fn target(&mut self) -> Target {
        match self.rng.below(100) {
            0..14 => Target::Type(scalar_type(self.kind())),
            14..30 => Target::Type(vec_type(self.size(), self.kind())),
            30..46 => Target::Type(mat_type(self.size(), self.size(), self.float())),
            46..56 => Target::Type(array_type(self.rng.from_to(1, 4), self.ty(1))),
            56..62 => Target::Type(runtime_type(self.ty(1))),
            62..70 => Target::Type(self.structure(1)),
            70..80 => Target::Array,
            80..90 => Target::Vec(self.size()),
            _ => Target::Mat(self.size(), self.size()),
        }
    }

    /// Types of arguments that the target is meant to take.
    fn arguments(&mut self, target: &Target) -> Vec<Type> {
        match target {
            Target::Type(Type::Vec(n, kind)) => self.vector(*n, type_kind(kind).expect("scalar"), true),
            Target::Type(Type::Mat(c, r, kind)) => self.matrix(*c, *r, type_kind(kind).expect("scalar"), true),
            Target::Type(Type::Array(inner, n)) => self.elements(n.unwrap_or(2), inner),
            Target::Type(Type::Struct(s)) => s.members.iter().map(|m| self.source_type(&m.ty)).collect(),
            Target::Type(_) => vec![scalar_type(self.kind())],
            Target::Array => {
                let (n, ty) = (self.rng.from_to(1, 4), self.ty(1));
                self.elements(n, &ty)
            }
            Target::Vec(n) => {
                let kind = self.kind();
                self.vector(*n, kind, false)
            }
            Target::Mat(c, r) => {
                let kind = self.rng.pick(&[INT, FLOAT, F32, F16]);
                self.matrix(*c, *r, kind, false)
            }
        }
    }

    fn elements(&mut self, n: usize, ty: &Type) -> Vec<Type> {
        (0..n).map(|_| self.source_type(ty)).collect()
    }

    fn vector(&mut self, n: u8, kind: u8, templated: bool) -> Vec<Type> {
        match self.rng.below(10) {
            0..2 => vec![scalar_type(self.source_kind(kind))],
            2..4 if templated => vec![vec_type(n, self.kind())],
            2..4 => vec![vec_type(n, kind)],
            _ => self.parts(n, kind),
        }
    }

    /// Scalars and vectors, `n` components in all.
    fn parts(&mut self, n: u8, kind: u8) -> Vec<Type> {
        let mut parts = Vec::new();
        let mut left = n;
        while left > 0 {
            let most = left.min(n - 1).min(3) as usize;
            let part = self.rng.from_to(1, most) as u8;
            let kind = self.source_kind(kind);
            parts.push(if part == 1 { scalar_type(kind) } else { vec_type(part, kind) });
            left -= part;
        }
        parts
    }

    fn matrix(&mut self, c: u8, r: u8, kind: u8, templated: bool) -> Vec<Type> {
        let float = if kind == INT { FLOAT } else { kind };
        match self.rng.below(10) {
            0..3 => vec![mat_type(c, r, if templated { self.float() } else { float })],
            3..7 => self.alike(c as usize, kind, |k| vec_type(r, k)),
            _ => self.alike((c * r) as usize, kind, scalar_type),
        }
    }

    /// `n` types of one shape, each of a kind that converts to the given one.
    fn alike(&mut self, n: usize, kind: u8, shape: impl Fn(u8) -> Type) -> Vec<Type> {
        let mixed = self.rng.chance(50);
        (0..n).map(|_| shape(if mixed { self.source_kind(kind) } else { kind })).collect()
    }

    // -----------
    // CONVERSIONS
    // -----------

    fn conversion(&mut self) -> (Target, Vec<Instance>) {
        let ty = if self.rng.chance(35) { scalar_type(self.kind()) } else { self.ty(2) };
        let from = self.source_type(&ty);
        let args = vec![self.value(&from)];
        let target = match ty {
            Type::Array(inner, _) if self.rng.chance(30) => runtime_type(*inner),
            other => other,
        };
        if self.rng.chance(45) {
            return (Target::Type(target), args);
        }
        let (target, args) = self.changed(Target::Type(target), args);
        (target, args.into_iter().take(1).collect())
    }

    // -------
    // CHANGES
    // -------

    /// One or two changes to a call. At least one argument stays.
    fn changed(&mut self, target: Target, mut args: Vec<Instance>) -> (Target, Vec<Instance>) {
        let mut target = target;
        for _ in 0..self.rng.pick(&[1, 1, 1, 2]) {
            let i = self.rng.below(args.len());
            match self.rng.below(12) {
                0..3 => args[i] = self.other_kind(&args[i]),
                3 if args.len() > 1 => drop(args.remove(i)),
                4 => args.insert(i, args[i].clone()),
                5 | 6 => args[i] = self.other_size(&args[i]),
                7 => {
                    let ty = self.ty(1);
                    args[i] = self.value(&ty);
                }
                8 => args.swap(0, i),
                9 => self.all_of_another_shape(&mut args),
                _ => target = self.other_target(target),
            }
        }
        (target, args)
    }

    fn other_kind(&mut self, arg: &Instance) -> Instance {
        let kind = self.kind();
        let ty = with_kind(&arg.ty(), kind);
        self.value(&ty)
    }

    fn other_size(&mut self, arg: &Instance) -> Instance {
        let ty = self.resized(arg.ty());
        self.value(&ty)
    }

    fn resized(&mut self, ty: Type) -> Type {
        match ty {
            Type::Vec(_, inner) => Type::Vec(self.size(), inner),
            Type::Mat(c, _, inner) => Type::Mat(c, self.size(), inner),
            Type::Array(inner, Some(n)) => Type::Array(inner, Some(n % 4 + 1)),
            Type::Struct(s) => {
                let members = s.members.into_iter().map(|m| m.ty).collect();
                struct_of(self.rng.pick(&[0, 1, 2]), members)
            }
            scalar => self.wrapped(scalar),
        }
    }

    /// A scalar made a vector, an array or a struct.
    fn wrapped(&mut self, scalar: Type) -> Type {
        match self.rng.below(3) {
            0 => Type::Vec(self.size(), scalar.into()),
            1 => array_type(1, scalar),
            _ => struct_of(1, vec![scalar]),
        }
    }

    /// Every argument becomes a value of one and the same other shape.
    fn all_of_another_shape(&mut self, args: &mut [Instance]) {
        let ty = match self.rng.below(4) {
            0 => mat_type(2, 2, self.float()),
            1 => array_type(self.rng.from_to(1, 2), scalar_type(self.rng.pick(&[INT, FLOAT, F32, BOOL]))),
            2 => vec_type(self.size(), self.kind()),
            _ => self.ty(1),
        };
        for arg in args {
            *arg = self.value(&ty);
        }
    }

    fn other_target(&mut self, target: Target) -> Target {
        match target {
            Target::Array => Target::Vec(self.size()),
            Target::Vec(_) => Target::Vec(self.size()),
            Target::Mat(_, r) if self.rng.chance(50) => Target::Mat(self.size(), r),
            Target::Mat(c, _) => Target::Mat(c, self.size()),
            Target::Type(ty) if self.rng.chance(50) => Target::Type(with_kind(&ty, self.kind())),
            Target::Type(ty @ Type::Array(_, None)) => Target::Type(ty),
            Target::Type(ty) if ty.is_scalar() => Target::Type(scalar_type(self.kind())),
            Target::Type(ty) => Target::Type(self.resized(ty)),
        }
    }
}

fn value_bytes(values: &[Instance]) -> usize {
    let mut bytes = Vec::new();
    values.iter().for_each(|v| write_value(v, &mut bytes).expect("value record"));
    bytes.len()
}

fn zero_is_small(target: &Target) -> bool {
    match target {
        Target::Type(ty) => literal_count(ty) <= 24,
        _ => true,
    }
}
