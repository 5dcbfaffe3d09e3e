//! The printed case and P1 to P12 of document 01, the stages, and the edges of the functions over trees.
#![cfg(feature = "std")]

use std::slice::from_ref;

use vireodesk::*;

/// The constructor of a type, of one argument.
fn build(stage: Stage, ty: Type, arg: impl Into<Value>) -> Result<Value, Refusal> {
    call_ctor(stage, &ty.into(), &[arg.into()])
}

fn convert(ty: Type, arg: impl Into<Value>) -> Result<Value, Refusal> {
    convert_to(&ty.into(), &arg.into())
}

fn made(scalar: impl Into<Value>) -> Result<Value, Refusal> {
    Ok(scalar.into())
}

#[test]
fn printed_case() {
    let made = build(Stage::Const, Type::vector(2, Kind::F32), 1i64).unwrap();
    assert_eq!(made, Value::vector([1f32, 1.0]));
    let hex: String = made.encode().unwrap().iter().map(|byte| format!("{byte:02x}")).collect();
    assert_eq!(hex, "5676025673050000803f000000005673050000803f00000000");
}

#[test]
fn p1_to_p3_floats_saturate() {
    for stage in Stage::ALL {
        assert_eq!(build(stage, Type::I32, f32::from_bits(0x4F00_0000)), made(2_147_483_520i32));
        assert_eq!(build(stage, Type::U32, f32::from_bits(0x4F80_0000)), made(4_294_967_040u32));
        assert_eq!(build(stage, Type::I32, Literal::f16(0x7C00)), made(65504i32));
    }
}

#[test]
fn p4_ties_to_even() {
    assert_eq!(build(Stage::Const, Type::F32, 16_777_217i64), made(f32::from_bits(0x4B80_0000)));
}

#[test]
fn p5_two_roundings_and_one() {
    let given = f64::from_bits(0x3FF0_0200_0000_1000);
    assert_eq!(build(Stage::Exec, Type::F16, given), made(Literal::f16(0x3C00)));
    assert_eq!(convert(Type::F16, given), made(Literal::f16(0x3C01)));
}

#[test]
fn p6_to_p8_the_ends_of_the_ranges() {
    assert_eq!(convert(Type::F16, 65519i64), made(Literal::f16(0x7BFF)));
    assert_eq!(convert(Type::F16, 65520i64), Err(Refusal::NoConversion));
    let past = f64::from(f32::MAX) + 2f64.powi(102);
    for stage in [Stage::Const, Stage::Override] {
        assert_eq!(build(stage, Type::F16, 65505i64), Err(Refusal::FloatRange));
        assert_eq!(build(stage, Type::F32, past), Err(Refusal::FloatRange));
    }
    assert_eq!(build(Stage::Exec, Type::F16, 65505i64), made(Literal::f16(0x7BFF)));
    assert_eq!(convert(Type::F32, past), made(f32::from_bits(0x7F7F_FFFF)));
}

#[test]
fn const_and_override_give_one_result() {
    let vector = Target::from(Type::vector(2, Kind::F32));
    let matrix = Target::from(Type::matrix(2, 2, Kind::F16));
    let square = |last| Value::matrix([[1f32, 1.0], [1.0, last]]);
    let (range, no_conversion) = (Some(Refusal::FloatRange), Some(Refusal::NoConversion));
    // target, argument, the refusal at Const and at Override, the one at Exec
    let calls = [
        (Type::F32.into(), Value::from(1e300), range, None),
        (vector.clone(), Value::vector([1.0, 1e300]), range, None),
        (matrix.clone(), square(65536.0), range, None),
        // converted, which no stage changes
        (vector.clone(), Value::from(1e300), no_conversion, no_conversion),
        (vector, Value::vector([1.0, 1.0]), None, None),
        (matrix, square(1.0), None, None),
    ];
    for (target, arg, checked, unchecked) in calls {
        let mut route = Route::new();
        let alone = Stage::ALL.map(|stage| {
            route.push(stage, &target, from_ref(&arg));
            call_ctor(stage, &target, from_ref(&arg))
        });
        assert_eq!(alone.clone().map(Result::err), [checked, checked, unchecked]);
        assert_eq!(alone[0], alone[1]);
        assert_eq!(route.fold().unwrap(), alone);
    }
}

#[test]
fn p9_bool() {
    assert_eq!(build(Stage::Const, Type::BOOL, f32::NAN), made(true));
    assert_eq!(build(Stage::Const, Type::BOOL, -0f32), made(false));
}

#[test]
fn p10_no_common_type() {
    let args = [1i32.into(), 1.0.into()];
    assert_eq!(call_ctor(Stage::Const, &Target::Vector(2), &args), Err(Refusal::NoCommonType));
}

#[test]
fn p11_long_columns() {
    let column = Value::vector([1f32; 3]);
    let types = [column.ty().unwrap(), column.ty().unwrap()];
    let refused = call_ctor(Stage::Const, &Target::Matrix(2, 2), &[column.clone(), column]);
    assert_eq!(refused, Err(Refusal::ColumnLength));
    assert_eq!(type_ctor(&Target::Matrix(2, 2), &types), Err(Refusal::ColumnLength));
}

#[test]
fn p12_counts() {
    let target = Target::from(Type::array(3, Type::I32));
    let two = call_ctor(Stage::Const, &target, &[1i32.into(), 2i32.into()]);
    assert_eq!(two, Err(Refusal::Count { wanted: 3, given: 2 }));
    assert_eq!(type_ctor(&target, &[Type::I32, Type::I32]).map(Target::from), Ok(target));
}

#[test]
fn ranks() {
    let rank = |to: Type, from: Type| conversion_rank(&to.into(), &from);
    let to = [Type::ABSTRACT_INT, Type::I32, Type::U32, Type::ABSTRACT_FLOAT, Type::F32, Type::F16, Type::BOOL];
    let ranks = to.map(|to| rank(to, Type::ABSTRACT_INT));
    assert_eq!(ranks, [Ok(0), Ok(3), Ok(4), Ok(5), Ok(6), Ok(7), Err(Refusal::NoConversion)]);
    assert_eq!([Type::F32, Type::F16].map(|to| rank(to, Type::ABSTRACT_FLOAT)), [Ok(1), Ok(2)]);
    assert_eq!(conversion_rank(&Target::Array, &Type::F32), Err(Refusal::BadTarget));
}

#[test]
fn the_longest_record() {
    let zeros = |ty: Type| call_ctor(Stage::Exec, &ty.into(), &[]);
    assert_eq!(zeros(Type::array(65535, Type::I32)), Ok(Value::array(vec![0i32; 65535])));
    // 65,535 rows of 23 zeros are 4 + 65535 * (4 + 23 * 11) bytes, just over 16 MiB; rows of 22 are not.
    let rows = |n| zeros(Type::array(65535, Type::array(n, Type::I32)));
    assert_eq!(rows(23), Err(Refusal::NoRoom));
    let Ok(Value::Array(made)) = rows(22) else { panic!("rows of 22 fit") };
    assert_eq!((made.len(), &made[65534]), (65535, &Value::array([0i32; 22])));
    // A length past 64 bits is 22 as well.
    let vast = (0..15).fold(Type::I32, |element, _| Type::array(65535, element));
    assert_eq!(zeros(vast), Err(Refusal::NoRoom));
}

#[test]
fn the_longest_conversion() {
    let ty = |n| Type::array(65535, Type::array(n, Type::F32));
    let rows = |n| Value::array(vec![Value::array(vec![1.0; n]); 65535]);
    assert!(convert(ty(22), rows(22)) == Ok(Value::array(vec![Value::array([1f32; 22]); 65535])));
    assert_eq!(convert(ty(23), rows(23)), Err(Refusal::NoRoom));
    // Also to a runtime-sized array, whose record has no count.
    let runtime = convert_to(&Target::Runtime(Type::F32), &Value::array([1.0, 2.0]));
    assert_eq!(runtime, Ok(Value::array([1f32, 2.0])));
}

#[test]
fn the_longest_type() {
    // 6 bytes, 7 for each array and 3 for each scalar: 4,096.
    let members = [vec![Type::array(1, Type::F32); 256], vec![Type::F32; 766]].concat();
    let ty = Type::structure(0, members);
    assert_eq!(ty.encode().map(|record| record.len()), Ok(4096));
    assert_eq!(type_ctor(&ty.clone().into(), &[]), Ok(ty));
}

#[test]
fn a_tree_without_a_record_is_refused() {
    let refused = |target: &Target, arg: Value| call_ctor(Stage::Const, target, &[arg]).unwrap_err();
    let deep = (0..16).fold(Value::from(1f32), |inner, _| Value::array([inner]));
    let deep_type = (0..16).fold(Type::F32, |inner, _| Type::array(1, inner));
    assert_eq!(deep.encode().unwrap_err().to_string(), "malformed at byte 60: deeper than 15");
    assert!(deep.ty().is_err());
    assert!(deep_type.encode().is_err());
    let without = [deep.clone(), Value::array(vec![1f32; 65536]), Value::vector([1f32; 300])];
    // Those below are written, and refused by the library.
    let refused_there = [
        Value::vector([1f32]),
        Value::vector([Literal::f32(1.0), Literal::i32(1)]),
        Value::matrix([vec![1f32; 2], vec![1f32; 3]]),
        Value::Array(vec![]),
        Literal { kind: Kind::Bool, bits: 2 }.into(),
    ];
    for arg in without.into_iter().chain(refused_there) {
        assert_eq!(refused(&Type::F32.into(), arg.clone()), Refusal::BadArgument, "{arg:?}");
        assert_eq!(convert(Type::F32, arg), Err(Refusal::BadArgument));
    }
    // A bad target comes before a bad argument, with a record or without.
    for target in [Target::Vector(5), Target::Matrix(2, 0), deep_type.clone().into(), Target::Runtime(deep_type)] {
        assert_eq!(refused(&target, deep.clone()), Refusal::BadTarget);
        assert_eq!(convert_to(&target, &deep), Err(Refusal::BadTarget));
    }
}
