//! From Rust's numbers to literals and values, and back; kinds and stages by their numbers.
#![cfg(feature = "std")]

use vireodesk::*;

#[test]
fn from_rusts_numbers() {
    let literals = [true.into(), (-1i32).into(), 7u32.into(), 1.5f32.into(), 1.5f64.into(), Literal::from(-1i64)];
    let due = [
        Literal::bool(true),
        Literal::i32(-1),
        Literal::u32(7),
        Literal::f32(1.5),
        Literal::abstract_float(1.5),
        Literal::abstract_int(-1),
    ];
    assert_eq!(literals, due);
    let values = [true.into(), (-1i32).into(), 7u32.into(), 1.5f32.into(), 1.5f64.into(), Value::from(-1i64)];
    assert_eq!(values, due.map(Value::Scalar));
    // The sign of an I32 goes no further than its 32 bits.
    assert_eq!(Literal::i32(-1).bits, 0xFFFF_FFFF);
}

#[test]
fn each_kind_reads_back_as_itself_alone() {
    let one_of_each: [Literal; 7] =
        [true.into(), (-1i64).into(), (-0.5).into(), (-1i32).into(), 7u32.into(), 1.5f32.into(), Literal::f16(0x3C00)];
    for (place, literal) in one_of_each.into_iter().enumerate() {
        let only = |here: usize| place == here;
        assert_eq!(literal.as_bool(), only(0).then_some(true));
        assert_eq!(literal.as_abstract_int(), only(1).then_some(-1));
        assert_eq!(literal.as_abstract_float(), only(2).then_some(-0.5));
        assert_eq!(literal.as_i32(), only(3).then_some(-1));
        assert_eq!(literal.as_u32(), only(4).then_some(7));
        assert_eq!(literal.as_f32(), only(5).then_some(1.5));
        assert_eq!(literal.as_f16(), only(6).then_some(0x3C00));

        let value = Value::from(literal);
        assert_eq!((value.as_bool(), value.as_abstract_int()), (literal.as_bool(), literal.as_abstract_int()));
        assert_eq!((value.as_abstract_float(), value.as_i32()), (literal.as_abstract_float(), literal.as_i32()));
        assert_eq!(
            (value.as_u32(), value.as_f32(), value.as_f16()),
            (literal.as_u32(), literal.as_f32(), literal.as_f16())
        );
        assert_eq!((value.as_f64(), value.as_i64()), (literal.as_f64(), literal.as_i64()));
    }
}

#[test]
fn any_kind_as_an_f64() {
    let float = |literal: Literal| literal.as_f64();
    assert_eq!([true, false].map(|bool| float(bool.into())), [None, None]);
    assert_eq!([i32::MIN, -1, i32::MAX].map(|n| float(n.into())), [-2147483648.0, -1.0, 2147483647.0].map(Some));
    assert_eq!(float(u32::MAX.into()), Some(4294967295.0));
    assert_eq!(float(0.1f32.into()), Some(f64::from(0.1f32)));
    assert_eq!(float(0.1.into()), Some(0.1));
    assert_eq!(float(Literal::f16(0x3555)), Some(1365.0 / 4096.0));
    let bits = |literal: Literal| literal.as_f64().map(f64::to_bits);
    assert_eq!(bits((-0.0f32).into()), Some((-0.0f64).to_bits()));
    assert_eq!(bits(Literal::f16(0x8000)), Some((-0.0f64).to_bits()));
    for nan in [f32::NAN.into(), f64::NAN.into(), Literal::f16(0x7C01), Literal::f16(0xFE00)] {
        assert!(float(nan).is_some_and(f64::is_nan), "{nan:?}");
    }
    let infinities = [f32::INFINITY.into(), Literal::f16(0x7C00), Literal::f16(0xFC00)].map(float);
    assert_eq!(infinities, [f64::INFINITY, f64::INFINITY, f64::NEG_INFINITY].map(Some));

    // An AbstractInt, where it is the same number.
    let edge = 1i64 << 53;
    let ints = [0, edge, edge + 1, edge + 2, -edge - 1, i64::MIN, i64::MAX, i64::MAX - 511, i64::MAX - 1023];
    let exact = ints.map(|int| float(int.into()).map(|float| float as i128));
    let due = ints.map(|int| (![edge + 1, -edge - 1, i64::MAX, i64::MAX - 511].contains(&int)).then_some(int.into()));
    assert_eq!(exact, due);
}

#[test]
fn every_f16_as_an_f64() {
    for bits in 0..=u16::MAX {
        let (negative, exponent, fraction) = (bits >> 15 == 1, i32::from(bits >> 10 & 31), f64::from(bits & 1023));
        let magnitude = match exponent {
            0 => fraction * 2f64.powi(-24),
            31 if fraction == 0.0 => f64::INFINITY,
            31 => f64::NAN,
            _ => (1024.0 + fraction) * 2f64.powi(exponent - 25),
        };
        let due = if negative { -magnitude } else { magnitude };
        let number = Literal::f16(bits).as_f64().unwrap();
        assert!(number.to_bits() == due.to_bits() || number.is_nan() && due.is_nan(), "{bits:#06x}");
    }
}

#[test]
fn any_kind_as_an_i64() {
    let whole = |literal: Literal| literal.as_i64();
    assert_eq!(whole(true.into()), None);
    assert_eq!([i64::MIN, -1, i64::MAX].map(|n| whole(n.into())), [i64::MIN, -1, i64::MAX].map(Some));
    assert_eq!([i32::MIN, -1].map(|n| whole(n.into())), [i64::from(i32::MIN), -1].map(Some));
    assert_eq!(whole(u32::MAX.into()), Some(4294967295));
    assert_eq!([-0.0, 3.0, -3.0, 2.5, 1e-300].map(|n: f64| whole(n.into())), [Some(0), Some(3), Some(-3), None, None]);
    let two_63 = 2f64.powi(63);
    let (under, past) = (2f64.powi(63) - 1024.0, -2f64.powi(63) - 2048.0);
    let edges = [-two_63, two_63, under, past, f64::INFINITY, f64::NAN];
    assert_eq!(edges.map(|n| whole(n.into())), [Some(i64::MIN), None, Some(i64::MAX - 1023), None, None, None]);
    assert_eq!([16777216f32, 0.1, f32::MAX, f32::NAN].map(|n| whole(n.into())), [Some(16777216), None, None, None]);
    assert_eq!(
        [0x8000, 0x7BFF, 0x3E00, 0x7C00].map(|bits| whole(Literal::f16(bits))),
        [Some(0), Some(65504), None, None]
    );
}

#[test]
fn only_a_scalar_is_one() {
    let pair = Value::vector([1f32, 2.0]);
    for value in [pair.clone(), Value::matrix([[1.0; 2]; 2]), Value::array([1i32]), Value::structure(1, [pair])] {
        assert_eq!((value.as_f32(), value.as_i32(), value.as_f64(), value.as_i64()), (None, None, None, None));
        assert_eq!((value.as_bool(), value.as_u32(), value.as_f16()), (None, None, None));
        assert_eq!((value.as_abstract_int(), value.as_abstract_float()), (None, None));
    }
}

#[test]
fn all_literals_of_a_value() {
    let inner = Value::structure(1, [true.into(), Value::array([7u32, 8])]);
    let value = Value::array([inner.clone(), Value::matrix([[1f32, 2.0], [3.0, 4.0]]), inner]);
    let ends: [Literal; 3] = [true.into(), 7u32.into(), 8u32.into()];
    let middle = [1f32, 2.0, 3.0, 4.0].map(Literal::from);
    assert_eq!(value.literals(), [&ends[..], &middle, &ends].concat());
    assert_eq!(Value::from(1.5).literals(), [Literal::from(1.5)]);
    assert_eq!(Value::Array(vec![]).literals(), []);
}

#[test]
fn trees_in_one_line() {
    assert_eq!(Kind::ALL.map(Type::from), Kind::ALL.map(Type::Scalar));
    let scalars = [Type::BOOL, Type::ABSTRACT_INT, Type::ABSTRACT_FLOAT, Type::I32, Type::U32, Type::F32, Type::F16];
    assert_eq!(scalars, Kind::ALL.map(Type::Scalar));
    assert_eq!(Type::vector(3, Kind::F32), Type::Vector { n: 3, kind: Kind::F32 });
    assert_eq!(Type::matrix(4, 3, Kind::F16), Type::Matrix { columns: 4, rows: 3, kind: Kind::F16 });
    assert_eq!(Type::array(3, Type::I32), Type::Array { count: 3, element: Box::new(Type::I32) });
    assert_eq!(Type::structure(1, [Type::I32]), Type::Struct { identity: 1, members: vec![Type::I32] });

    let floats = [0.5f32, 2.0].map(Literal::f32);
    assert_eq!(Value::vector([0.5f32, 2.0]), Value::Vector(floats.to_vec()));
    assert_eq!(Value::vector(floats), Value::Vector(floats.to_vec()));
    assert_eq!(Value::matrix([floats, floats]), Value::Matrix(vec![floats.to_vec(); 2]));
    assert_eq!(Value::array((1..3).map(i64::from)), Value::Array(vec![1i64.into(), 2i64.into()]));
    let members = vec![Value::from(true), Value::vector(floats)];
    assert_eq!(Value::structure(9, members.clone()), Value::Struct { identity: 9, members });
}

#[test]
fn kinds_and_stages_by_number() {
    for number in 0..=u8::MAX {
        let (kind, stage) = (Kind::try_from(number), Stage::try_from(number));
        assert_eq!(kind.ok(), Kind::ALL.get(usize::from(number)).copied());
        assert_eq!(stage.ok(), Stage::ALL.get(usize::from(number)).copied());
        assert!(kind.map_or(true, |kind| kind.number() == number));
        assert!(stage.map_or(true, |stage| stage.number() == number));
    }
    assert_eq!(Kind::try_from(7).unwrap_err().to_string(), "malformed at byte 0: a kind over 6");
    assert_eq!(Stage::try_from(3), Err(Refusal::NoStage));
    // In a record the place is that of the kind's byte.
    assert_eq!(Type::decode(b"Tv\x02Ts\x07").unwrap_err().to_string(), "malformed at byte 5: a kind over 6");
}
