//! The fixed part of the list: the named cases of document 01, then every constructor,
//! conversion, rank, shape and refusal at its edges.

use super::{edges, values::*};
use crate::{
    Instance, Type,
    call::Call,
    records::{Target, kind_type},
};

/// All fixed calls, in a fixed order.
pub fn calls() -> Vec<Call> {
    let mut all = List::default();
    named_cases(&mut all);
    scalar_constructors(&mut all);
    scalar_refusals(&mut all);
    conversions(&mut all);
    composite_conversions(&mut all);
    ranks(&mut all);
    zero_values(&mut all);
    vectors_of_one(&mut all);
    vectors_of_several(&mut all);
    vector_refusals(&mut all);
    vector_edges(&mut all);
    matrices(&mut all);
    matrix_refusals(&mut all);
    matrix_edges(&mut all);
    arrays(&mut all);
    structs(&mut all);
    wrapped_totals(&mut all);
    depths(&mut all);
    all.calls
}

/// The calls so far. Stages go round where the case does not fix one.
#[derive(Default)]
struct List {
    calls: Vec<Call>,
    stage: u8,
}

impl List {
    fn next_stage(&mut self) -> u8 {
        self.stage = (self.stage + 1) % 3;
        self.stage
    }
    fn build_at(&mut self, stage: u8, target: &Target, args: &[Instance]) {
        self.calls.push(Call::build(stage, target, args));
    }
    fn build(&mut self, target: &Target, args: &[Instance]) {
        let stage = self.next_stage();
        self.build_at(stage, target, args);
    }
    fn typing(&mut self, target: &Target, args: &[Type]) {
        self.calls.push(Call::typing(target, args));
    }
    /// Building of plain values of the types, and typing of the types.
    fn both(&mut self, target: &Target, args: &[Type]) {
        self.build(target, &plain_values(args));
        self.typing(target, args);
    }
    fn convert(&mut self, target: &Type, arg: &Instance) {
        self.calls.push(Call::convert(target, arg));
    }
    fn rank(&mut self, target: &Type, arg: &Type) {
        self.calls.push(Call::rank(target, arg));
    }
}

fn to(ty: Type) -> Target {
    Target::Type(ty)
}

fn scalar(kind: u8) -> Target {
    to(scalar_type(kind))
}

const SIZES: [(u8, u8); 9] = [(2, 2), (2, 3), (2, 4), (3, 2), (3, 3), (3, 4), (4, 2), (4, 3), (4, 4)];
const FLOATS: [u8; 3] = [FLOAT, F32, F16];

/// Another length of a vector.
fn other_size(n: u8) -> u8 {
    2 + (n + 2) % 3
}

// -----------
// NAMED CASES
// -----------

/// The printed case and P1 to P12.
fn named_cases(all: &mut List) {
    all.build_at(0, &to(vec_type(2, F32)), &[bits(INT, 1)]);
    all.build_at(2, &scalar(I32), &[bits(F32, 0x4F000000)]);
    all.build_at(2, &scalar(U32), &[bits(F32, 0x4F800000)]);
    all.build_at(2, &scalar(I32), &[bits(F16, 0x7C00)]);
    all.build_at(0, &scalar(F32), &[bits(INT, 16777217)]);
    all.build_at(2, &scalar(F16), &[bits(FLOAT, 0x3FF0020000001000)]);
    all.convert(&scalar_type(F16), &bits(FLOAT, 0x3FF0020000001000));
    all.convert(&scalar_type(F16), &bits(INT, 65519));
    all.convert(&scalar_type(F16), &bits(INT, 65520));
    all.build_at(0, &scalar(F16), &[bits(INT, 65505)]);
    all.build_at(2, &scalar(F16), &[bits(INT, 65505)]);
    all.build_at(0, &scalar(F32), &[bits(FLOAT, 0x47EFFFFFE8000000)]);
    all.convert(&scalar_type(F32), &bits(FLOAT, 0x47EFFFFFE8000000));
    all.build_at(0, &scalar(BOOL), &[bits(F32, 0x7FC00000)]);
    all.build_at(0, &scalar(BOOL), &[bits(F32, 0x80000000)]);
    all.both(&Target::Vec(2), &[scalar_type(I32), scalar_type(FLOAT)]);
    all.both(&Target::Mat(2, 2), &[vec_type(3, F32), vec_type(3, F32)]);
    all.both(&to(array_type(3, scalar_type(I32))), &[scalar_type(I32), scalar_type(I32)]);
}

// -------
// SCALARS
// -------

/// Every scalar constructor on the edge literals of every kind. Where the stage can matter, at
/// Const and at a later stage; elsewhere at one stage, going round.
fn scalar_constructors(all: &mut List) {
    for kind in 0..7 {
        for (i, literal) in edges::literals(kind).into_iter().enumerate() {
            let arg = [Instance::Literal(literal)];
            if i % 3 == 0 || i < 2 || super::random::is_nan(&literal) {
                all.build(&scalar(BOOL), &arg);
            }
            for target in [I32, U32] {
                all.build(&scalar(target), &arg);
            }
            for target in [F32, F16] {
                scalar_constructor_by_stage(all, target, kind, &arg);
            }
        }
    }
}

fn scalar_constructor_by_stage(all: &mut List, target: u8, from: u8, arg: &[Instance]) {
    let stage_matters = from == FLOAT || target == F16 && matches!(from, INT | I32 | U32 | F32);
    if stage_matters {
        let later = 1 + (all.calls.len() % 2) as u8;
        all.build_at(0, &scalar(target), arg);
        all.build_at(later, &scalar(target), arg);
    } else {
        all.build(&scalar(target), arg);
    }
}

fn scalar_refusals(all: &mut List) {
    let others =
        [vec_type(2, F32), mat_type(2, 2, F32), array_type(1, scalar_type(F32)), struct_of(1, vec![scalar_type(F32)])];
    for kind in 0..7 {
        let target = scalar(kind);
        for from in 0..7 {
            all.typing(&target, &[scalar_type(from)]);
        }
        for other in &others {
            all.both(&target, std::slice::from_ref(other));
        }
        all.both(&target, &[scalar_type(kind), scalar_type(kind)]);
        all.both(&target, &[vec_type(2, F32), scalar_type(kind), scalar_type(BOOL)]);
    }
    all.build(&scalar(INT), &[bits(INT, 1)]);
    all.build(&scalar(FLOAT), &[bits(FLOAT, 0)]);
}

// -----------
// CONVERSIONS
// -----------

fn conversions(all: &mut List) {
    for from in 0..7u8 {
        for target in 0..7u8 {
            let takes = matches!((from, target), (INT, I32 | U32 | FLOAT | F32 | F16) | (FLOAT, F32 | F16));
            let edges = edges::literals(from);
            let few = [edges[0], edges[1], edges[edges.len() / 2]];
            let literals = if takes { &edges[..] } else { &few[..] };
            for literal in literals {
                all.convert(&scalar_type(target), &Instance::Literal(*literal));
            }
        }
    }
    for kind in [FLOAT, F32, F16] {
        for literal in edges::literals(kind) {
            if super::random::is_nan(&literal) {
                all.convert(&scalar_type(kind), &Instance::Literal(literal));
            }
        }
    }
}

fn composite_conversions(all: &mut List) {
    let inner = struct_of(4, vec![scalar_type(INT), vec_type(2, F32)]);
    let shapes = [
        vec_type(2, INT),
        vec_type(4, FLOAT),
        mat_type(2, 3, FLOAT),
        mat_type(3, 2, FLOAT),
        array_type(2, scalar_type(INT)),
        array_type(1, vec_type(3, FLOAT)),
        array_type(2, array_type(1, scalar_type(FLOAT))),
        array_type(1, mat_type(2, 2, FLOAT)),
        array_type(2, inner.clone()),
        inner,
    ];
    for shape in &shapes {
        let value = plain_value(shape);
        for kind in 0..7 {
            all.convert(&with_kind(shape, kind), &value);
        }
        if let Type::Array(element, Some(n)) = shape {
            for kind in [INT, FLOAT, I32, F32, F16] {
                all.convert(&runtime_type(with_kind(element, kind)), &value);
            }
            all.convert(&array_type(n + 1, (**element).clone()), &value);
        }
        all.convert(&runtime_type(scalar_type(INT)), &value);
    }
    near_misses_of_conversion(all);
}

fn near_misses_of_conversion(all: &mut List) {
    let two = |kind| vec![scalar_type(kind), scalar_type(kind)];
    let pairs = [
        (vec_type(3, F32), vec_type(2, FLOAT)),
        (mat_type(2, 3, F32), mat_type(3, 2, FLOAT)),
        (mat_type(2, 2, F16), mat_type(2, 2, F32)),
        (array_type(3, scalar_type(F32)), array_type(2, scalar_type(F32))),
        (array_type(2, scalar_type(F32)), vec_type(2, F32)),
        (vec_type(2, F32), array_type(2, scalar_type(F32))),
        (array_type(2, vec_type(2, F32)), mat_type(2, 2, F32)),
        (scalar_type(F32), vec_type(2, FLOAT)),
        (vec_type(2, F32), scalar_type(FLOAT)),
        (struct_of(1, two(F32)), struct_of(1, two(FLOAT))),
        (struct_of(1, two(F32)), struct_of(2, two(F32))),
        (struct_of(1, two(F32)), struct_of(1, two(F32))),
        (struct_of(1, two(F32)), vec_type(2, F32)),
        (runtime_type(scalar_type(F32)), scalar_type(F32)),
        (runtime_type(scalar_type(F32)), vec_type(2, F32)),
        (runtime_type(array_type(2, scalar_type(F32))), array_type(2, array_type(2, scalar_type(INT)))),
        (runtime_type(array_type(2, scalar_type(F32))), array_type(2, array_type(3, scalar_type(INT)))),
    ];
    for (target, from) in &pairs {
        all.convert(target, &plain_value(from));
        all.rank(target, from);
    }
    let one_bad = [bits(INT, 1), bits(INT, 70000), bits(INT, 2)];
    let array = crate::inst::ArrayInstance::new(one_bad.to_vec(), false).into();
    for kind in [I32, F32, F16] {
        all.convert(&array_type(3, scalar_type(kind)), &array);
        all.convert(&runtime_type(scalar_type(kind)), &array);
    }
}

fn ranks(all: &mut List) {
    for target in 0..7 {
        for from in 0..7 {
            all.rank(&scalar_type(target), &scalar_type(from));
        }
    }
    let shapes = [
        vec_type(2, INT),
        vec_type(3, FLOAT),
        mat_type(4, 2, FLOAT),
        array_type(5, scalar_type(INT)),
        array_type(65535, vec_type(4, INT)),
        array_type(2, array_type(3, mat_type(2, 2, FLOAT))),
    ];
    for shape in &shapes {
        for kind in 0..7 {
            all.rank(&with_kind(shape, kind), shape);
        }
        all.rank(&scalar_type(F32), shape);
        if let Type::Array(element, Some(_)) = shape {
            all.rank(&runtime_type((**element).clone()), shape);
        }
    }
    all.rank(&runtime_type(scalar_type(F32)), &scalar_type(F32));
    all.rank(&struct_of(65535, vec![scalar_type(F32)]), &struct_of(65535, vec![scalar_type(F32)]));
    all.rank(&struct_of(65535, vec![scalar_type(F32)]), &struct_of(65535, vec![scalar_type(FLOAT)]));
}

// -----------
// ZERO VALUES
// -----------

fn zero_values(all: &mut List) {
    let mut types: Vec<Type> = (0..7).filter_map(kind_type).collect();
    types.extend((2..5).flat_map(|n| (0..7).map(move |k| vec_type(n, k))));
    types.extend(SIZES.iter().flat_map(|(c, r)| FLOATS.map(|k| mat_type(*c, *r, k))));
    let nested = struct_of(7, vec![scalar_type(BOOL), vec_type(3, F16), array_type(2, scalar_type(U32))]);
    types.extend([
        array_type(1, scalar_type(F32)),
        array_type(7, scalar_type(BOOL)),
        array_type(2, vec_type(3, INT)),
        array_type(2, array_type(3, scalar_type(I32))),
        array_type(2, nested.clone()),
        array_type(2, mat_type(2, 2, F16)),
        struct_of(0, vec![scalar_type(INT)]),
        struct_of(65535, vec![scalar_type(FLOAT), nested.clone(), mat_type(2, 3, F32)]),
        nested.clone(),
        runtime_type(scalar_type(F32)),
        runtime_type(nested),
    ]);
    for ty in types {
        all.both(&to(ty), &[]);
    }
    all.both(&Target::Array, &[]);
    (2..5).for_each(|n| all.both(&Target::Vec(n), &[]));
    SIZES.iter().for_each(|(c, r)| all.both(&Target::Mat(*c, *r), &[]));
}

// -------
// VECTORS
// -------

/// One literal and one vector, for every pair of kinds.
fn vectors_of_one(all: &mut List) {
    for target in 0..7u8 {
        for from in 0..7u8 {
            let n = 2 + (target + from) % 3;
            all.both(&to(vec_type(n, target)), &[scalar_type(from)]);
            all.both(&to(vec_type(n, target)), &[vec_type(n, from)]);
        }
        let n = 2 + target % 3;
        let other = other_size(n);
        all.both(&to(vec_type(n, target)), &[vec_type(other, target)]);
        all.both(&Target::Vec(n), &[scalar_type(target)]);
        all.both(&Target::Vec(n), &[vec_type(n, target)]);
        all.both(&Target::Vec(n), &[vec_type(other, target)]);
    }
}

/// Every way to make 2, 3 or 4 components of parts, with equal and with mixed kinds.
fn vectors_of_several(all: &mut List) {
    let parts: [&[u8]; 14] = [
        &[1, 1],
        &[1, 1, 1],
        &[1, 2],
        &[2, 1],
        &[1, 1, 1, 1],
        &[1, 1, 2],
        &[1, 2, 1],
        &[2, 1, 1],
        &[2, 2],
        &[1, 3],
        &[3, 1],
        &[4, 1],
        &[2, 3],
        &[1, 1, 1, 1, 1],
    ];
    let mixes: [&[u8]; 6] = [&[F32], &[INT, I32], &[F16, FLOAT, INT], &[INT, FLOAT], &[U32, INT, INT], &[F32, F16]];
    for (i, part) in parts.iter().enumerate() {
        let total = part.iter().sum::<u8>();
        for (j, mix) in mixes.iter().enumerate() {
            let args = parts_of(part, mix);
            let n = if (i + j) % 5 == 4 { other_size(total.min(4)) } else { total.min(4) };
            let target = if (i + j) % 2 == 0 { Target::Vec(n) } else { to(vec_type(n, mix[0])) };
            all.both(&target, &args);
        }
    }
}

/// Scalars and vectors with the kinds taken in turn.
fn parts_of(parts: &[u8], kinds: &[u8]) -> Vec<Type> {
    let kind = |i: usize| kinds[i % kinds.len()];
    let part = |(i, n): (usize, &u8)| match n {
        1 => scalar_type(kind(i)),
        n => vec_type(*n, kind(i)),
    };
    parts.iter().enumerate().map(part).collect()
}

fn vector_refusals(all: &mut List) {
    let others = [
        mat_type(2, 2, F32),
        array_type(2, scalar_type(F32)),
        struct_of(1, vec![scalar_type(F32)]),
        scalar_type(BOOL),
        vec_type(2, BOOL),
    ];
    for other in &others {
        for target in [Target::Vec(2), to(vec_type(2, F32)), to(vec_type(3, INT))] {
            all.both(&target, std::slice::from_ref(other));
            all.both(&target, &[other.clone(), scalar_type(F32)]);
            all.both(&target, &[scalar_type(INT), other.clone()]);
            all.both(&target, &[other.clone(), other.clone()]);
            all.both(&target, &[scalar_type(F32), other.clone(), vec_type(4, F32)]);
        }
    }
}

/// Edge literals as components, converted and made by constructors.
fn vector_edges(all: &mut List) {
    for kind in [INT, FLOAT] {
        for pair in edges::literals(kind).chunks(2) {
            let args: Vec<Instance> = pair.iter().map(|l| Instance::Literal(*l)).collect();
            if args.len() < 2 {
                continue;
            }
            let target = [F32, F16, I32, FLOAT][all.calls.len() % 4];
            all.build(&to(vec_type(2, target)), &args);
            let both = Instance::Vec(crate::inst::VecInstance::new(args));
            all.build(&to(vec_type(2, target)), std::slice::from_ref(&both));
            all.build(&Target::Vec(3), &[both, bits(F32, 0x3F800000)]);
        }
    }
}

// --------
// MATRICES
// --------

fn columns(c: u8, r: u8, kinds: &[u8]) -> Vec<Type> {
    (0..c as usize).map(|i| vec_type(r, kinds[i % kinds.len()])).collect()
}

fn components(n: u8, kinds: &[u8]) -> Vec<Type> {
    (0..n as usize).map(|i| scalar_type(kinds[i % kinds.len()])).collect()
}

fn matrices(all: &mut List) {
    let mixes: [&[u8]; 4] = [&[F32], &[F16, FLOAT], &[INT], &[FLOAT, INT]];
    for (i, (c, r)) in SIZES.into_iter().enumerate() {
        let mix = mixes[i % 4];
        let target = to(mat_type(c, r, FLOATS[i % 3]));
        let shape = Target::Mat(c, r);
        all.both(&shape, &columns(c, r, mix));
        all.both(&shape, &components(c * r, mix));
        all.both(&target, &columns(c, r, &[INT, FLOATS[i % 3]]));
        all.both(&target, &components(c * r, &[FLOATS[i % 3], INT]));
        for kind in FLOATS {
            all.both(&target, &[mat_type(c, r, kind)]);
        }
        all.both(&shape, &[mat_type(c, r, FLOATS[i % 3])]);
        all.both(&shape, &[mat_type(r, c, F32)]);
        all.both(&target, &[mat_type(c, other_size(r), F32)]);
        all.both(&target, &columns(c, other_size(r), &[FLOATS[i % 3]]));
        all.both(&shape, &columns(c, other_size(r), &[F32]));
    }
}

fn matrix_refusals(all: &mut List) {
    let element = struct_of(1, vec![scalar_type(F32)]);
    let lists: Vec<Vec<Type>> = vec![
        vec![scalar_type(F32)],
        vec![vec_type(2, F32)],
        vec![vec_type(3, F32)],
        vec![vec_type(2, BOOL), vec_type(2, BOOL)],
        vec![scalar_type(BOOL); 4],
        vec![scalar_type(I32); 4],
        vec![vec_type(2, U32); 2],
        vec![scalar_type(F32), scalar_type(F32), scalar_type(F32)],
        components(5, &[F32, FLOAT]),
        components(4, &[F32, F16]),
        components(4, &[FLOAT, F32]),
        components(4, &[F16, BOOL]),
        columns(3, 2, &[F32]),
        columns(2, 2, &[FLOAT, F32]),
        columns(2, 2, &[F32, F16]),
        columns(3, 3, &[F32]),
        vec![vec_type(2, F32), vec_type(3, F32)],
        vec![vec_type(2, F32), scalar_type(F32), scalar_type(F32)],
        vec![scalar_type(F32), scalar_type(F32), vec_type(2, F32)],
        vec![mat_type(2, 2, F32), mat_type(2, 2, F32)],
        vec![mat_type(2, 2, F32), vec_type(2, F32)],
        vec![mat_type(2, 3, F16)],
        vec![array_type(2, scalar_type(F32))],
        vec![array_type(2, scalar_type(F32)); 2],
        vec![array_type(2, scalar_type(INT)); 2],
        vec![array_type(2, vec_type(2, F32))],
        vec![element.clone()],
        vec![element.clone(), element],
    ];
    for (i, list) in lists.iter().enumerate() {
        all.both(&Target::Mat(2, 2), list);
        all.both(&to(mat_type(2, 2, F32)), list);
        if i % 4 == 0 {
            all.both(&to(mat_type(2, 2, FLOAT)), list);
        }
    }
}

/// Edge literals in matrices: by conversion (scalars, columns) and by constructors (a matrix).
fn matrix_edges(all: &mut List) {
    for literals in edges::literals(FLOAT).chunks_exact(4) {
        let args: Vec<Instance> = literals.iter().map(|l| Instance::Literal(*l)).collect();
        let column = |i: usize| Instance::Vec(crate::inst::VecInstance::new(args[i..i + 2].to_vec()));
        let matrix = Instance::Mat(crate::inst::MatInstance::from_cols(vec![column(0), column(2)]));
        let kind = [F32, F16][all.calls.len() % 2];
        all.build(&to(mat_type(2, 2, kind)), &args);
        all.build(&to(mat_type(2, 2, kind)), &[matrix]);
        all.build(&Target::Mat(2, 2), &[column(0), column(2)]);
    }
    for literals in edges::literals(INT).chunks_exact(4) {
        let args: Vec<Instance> = literals.iter().map(|l| Instance::Literal(*l)).collect();
        all.build(&Target::Mat(2, 2), &args);
    }
}

// ------------------
// ARRAYS AND STRUCTS
// ------------------

fn arrays(all: &mut List) {
    let elements = [
        scalar_type(F32),
        scalar_type(INT),
        vec_type(2, F16),
        mat_type(2, 2, F32),
        array_type(2, scalar_type(I32)),
        struct_of(3, vec![scalar_type(F32), vec_type(2, BOOL)]),
    ];
    for element in &elements {
        let abstract_one = map_kinds(element, &|k| if matches!(k, F32 | F16) { FLOAT } else { INT });
        let lists = [
            vec![element.clone()],
            vec![element.clone(), element.clone()],
            vec![abstract_one.clone(), element.clone()],
            vec![element.clone(), abstract_one.clone(), element.clone()],
            vec![abstract_one.clone(), abstract_one],
            vec![element.clone(), scalar_type(BOOL)],
            vec![scalar_type(BOOL), element.clone(), element.clone()],
            vec![element.clone(), with_kind(element, U32)],
        ];
        for (i, list) in lists.iter().enumerate() {
            all.both(&to(array_type(2, element.clone())), list);
            all.both(&Target::Array, list);
            if i % 3 == 0 {
                all.both(&to(runtime_type(element.clone())), list);
            }
        }
    }
    all.both(&to(array_type(65535, scalar_type(I32))), &[scalar_type(INT)]);
    all.typing(&to(array_type(65535, array_type(65535, scalar_type(I32)))), &[]);
    array_common_types(all);
}

/// Common types found late in a list, and literals that don't fit the one found.
fn array_common_types(all: &mut List) {
    let lists: [&[(u8, u64)]; 8] = [
        &[(INT, 1), (FLOAT, 0x3FF0000000000000), (F32, 0x40000000)],
        &[(F32, 0x40000000), (FLOAT, 0x3FF0000000000000), (INT, 1)],
        &[(INT, 1), (I32, 2), (F32, 0)],
        &[(FLOAT, 0), (I32, 2), (INT, 1)],
        &[(INT, 2147483648), (I32, 2)],
        &[(U32, 2), (INT, u64::MAX)],
        &[(F16, 0x3C00), (INT, 65519), (FLOAT, 0x40EFFE0000000000)],
        &[(FLOAT, 0x7FF0000000000000), (FLOAT, 0x7FF8000000000001)],
    ];
    for list in lists {
        let args: Vec<Instance> = list.iter().map(|(kind, b)| bits(*kind, *b)).collect();
        let types: Vec<Type> = list.iter().map(|(kind, _)| scalar_type(*kind)).collect();
        all.build(&Target::Array, &args);
        all.typing(&Target::Array, &types);
        if args.len() == 3 {
            all.build(&Target::Vec(3), &args);
            all.typing(&Target::Vec(3), &types);
        }
    }
}

fn structs(all: &mut List) {
    let inner = struct_of(9, vec![scalar_type(F16), scalar_type(BOOL)]);
    let members = vec![scalar_type(F32), vec_type(2, I32), inner.clone(), array_type(2, scalar_type(U32))];
    let target = to(struct_of(10, members.clone()));
    let changed = |i: usize, ty: Type| {
        let mut list = members.clone();
        list[i] = ty;
        list
    };
    let mut lists = vec![
        members.clone(),
        members.iter().map(|m| with_kind(m, INT)).collect(),
        changed(0, scalar_type(FLOAT)),
        changed(0, scalar_type(F16)),
        changed(1, vec_type(3, I32)),
        changed(1, vec_type(2, U32)),
        changed(2, struct_of(8, vec![scalar_type(F16), scalar_type(BOOL)])),
        changed(2, struct_of(9, vec![scalar_type(INT), scalar_type(BOOL)])),
        changed(3, array_type(3, scalar_type(U32))),
        changed(3, array_type(2, scalar_type(F32))),
        members[..3].to_vec(),
        vec![inner.clone()],
    ];
    lists.push(members.iter().cloned().chain([inner]).collect());
    for list in &lists {
        all.both(&target, list);
    }
    let one = to(struct_of(0, vec![scalar_type(F16)]));
    for literal in edges::literals(INT).into_iter().chain(edges::literals(FLOAT)).step_by(4) {
        all.build(&one, &[Instance::Literal(literal)]);
    }
}

// --------------------
// TOTALS AND THE DEPTH
// --------------------

/// Typing of vectors of 256 components and more.
fn wrapped_totals(all: &mut List) {
    let fours = |n: usize| vec![vec_type(4, F32); n];
    let with = |n: usize, rest: Vec<Type>| [fours(n), rest].concat();
    let lists = [
        with(63, vec![vec_type(3, F32)]),
        fours(64),
        with(64, vec![vec_type(2, F32)]),
        with(64, vec![scalar_type(INT), scalar_type(F32)]),
        with(64, vec![vec_type(2, I32)]),
        with(64, vec![vec_type(3, FLOAT)]),
        fours(65),
        with(64, vec![vec_type(2, F32), mat_type(2, 2, F32)]),
    ];
    for list in &lists {
        for n in 2..5 {
            all.typing(&Target::Vec(n), list);
            all.typing(&to(vec_type(n, F32)), list);
        }
    }
}

/// Types of the greatest depth.
fn depths(all: &mut List) {
    let nested = |n: usize| {
        (0..n).fold(scalar_type(INT), |ty, i| if i % 2 == 0 { array_type(1, ty) } else { struct_of(1, vec![ty]) })
    };
    let arrays = |n: usize, kind: u8| (0..n).fold(scalar_type(kind), |ty, _| array_type(1, ty));
    all.both(&to(nested(15)), &[]);
    all.both(&to(nested(15)), &[nested(14)]);
    all.both(&to(runtime_type(nested(14))), &[nested(14)]);
    all.both(&Target::Array, &[nested(14), nested(14)]);
    all.both(&to(arrays(15, F32)), &[arrays(14, INT)]);
    all.both(&Target::Array, &[arrays(14, INT), arrays(14, F16)]);
    all.convert(&arrays(15, F32), &plain_value(&arrays(15, FLOAT)));
    all.convert(&runtime_type(arrays(14, F16)), &plain_value(&arrays(15, INT)));
    all.rank(&arrays(15, F16), &arrays(15, INT));
    all.rank(&arrays(15, F16), &arrays(14, INT));
    let many = struct_of(2, vec![scalar_type(BOOL); 100]);
    all.both(&to(many.clone()), &[]);
    all.rank(&many, &many);
    all.convert(&many, &plain_value(&struct_of(2, vec![scalar_type(BOOL); 40])));
}
