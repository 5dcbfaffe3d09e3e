//! Everything as WGSL writes it.
#![cfg(feature = "std")]

use std::{collections::HashSet, fmt::Display};

use vireodesk::*;

/// Each of these is written like this.
fn are_written<T: Display>(cases: impl IntoIterator<Item = (T, &'static str)>) {
    for (case, due) in cases {
        assert_eq!(case.to_string(), due);
    }
}

#[test]
fn kinds_and_stages() {
    let kinds = ["bool", "AbstractInt", "AbstractFloat", "i32", "u32", "f32", "f16"];
    assert_eq!(Kind::ALL.map(|kind| kind.to_string()), kinds);
    assert_eq!(Kind::ALL.map(|kind| Type::from(kind).to_string()), kinds);
    assert_eq!(Stage::ALL.map(|stage| stage.to_string()), ["Const", "Override", "Exec"]);
    assert_eq!(format!("[{:>5}{:<6}]", Kind::F32, Stage::Exec), "[  f32Exec  ]");
}

#[test]
fn whole_numbers() {
    are_written([
        (Literal::from(true), "true"),
        (false.into(), "false"),
        (3i64.into(), "3"),
        (i64::MAX.into(), "9223372036854775807"),
        ((i64::MIN + 1).into(), "-9223372036854775807"),
        (i64::MIN.into(), "(-9223372036854775807 - 1)"),
        ((-3i32).into(), "-3i"),
        (i32::MAX.into(), "2147483647i"),
        (i32::MIN.into(), "i32(-2147483648)"),
        (7u32.into(), "7u"),
        (u32::MAX.into(), "4294967295u"),
        // A payload that the kind can't have.
        (Literal { kind: Kind::Bool, bits: 2 }, "true"),
    ]);
}

#[test]
fn floats() {
    are_written([
        (Literal::from(1.5), "1.5"),
        (3.0.into(), "3.0"),
        ((-0.0).into(), "-0.0"),
        (0.1.into(), "0.1"),
        (1e300.into(), "1e300"),
        (5e-324.into(), "5e-324"),
        (0.508f32.into(), "0.508f"),
        (12410f32.into(), "12410.0f"),
        (f32::MAX.into(), "3.4028235e38f"),
        (f32::MIN_POSITIVE.into(), "1.1754944e-38f"),
        (f32::from_bits(1).into(), "1e-45f"),
        (Literal::f16(0x3E00), "1.5h"),
        (Literal::f16(0x8000), "-0.0h"),
        (Literal::f16(0xBC00), "-1.0h"),
        (Literal::f16(0x3555), "0.3333h"),
        // 0.15625, and with the same choice 1 + 1/256, which is 1.00390625.
        (Literal::f16(0x3100), "0.1563h"),
        ((1f32 + 1.0 / 256.0).into(), "1.0039063f"),
        (Literal::f16(0x2E66), "0.1h"),
        (Literal::f16(0x0001), "6e-8h"),
        (Literal::f16(0x03FF), "6.1e-5h"),
        // All from 65,488 on are the largest.
        (Literal::f16(0x7BFF), "65500.0h"),
        (Literal::f16(0x6800), "2048.0h"),
        (Literal::f16(0x6801), "2050.0h"),
    ]);
}

#[test]
fn what_wgsl_cannot_write() {
    are_written([
        (Literal::from(f64::INFINITY), "inf"),
        (f64::NEG_INFINITY.into(), "-inf"),
        (f32::INFINITY.into(), "inf"),
        (f32::NEG_INFINITY.into(), "-inf"),
        (Literal::f16(0x7C00), "inf"),
        (Literal::f16(0xFC00), "-inf"),
        (f64::from_bits(0x7FF8_0000_0000_0001).into(), "nan(0x7ff8000000000001)"),
        (Literal { kind: Kind::F32, bits: 0x7FC0_0000 }, "nan(0x7fc00000)"),
        (Literal { kind: Kind::F32, bits: 0xFF80_0001 }, "nan(0xff800001)"),
        (Literal::f16(0x7E00), "nan(0x7e00)"),
        (Literal::f16(0xFC01), "nan(0xfc01)"),
    ]);
    are_written([(Value::vector([f32::INFINITY, f32::from_bits(0x7FC0_0000)]), "vec2<f32>(inf, nan(0x7fc00000))")]);
}

/// Bits drawn from a seed.
struct Draw(u64);

impl Draw {
    fn bits(&mut self) -> u64 {
        self.0 = self.0.wrapping_mul(6364136223846793005).wrapping_add(1442695040888963407);
        self.0 ^ self.0 >> 29
    }
}

/// A literal's text without the suffix.
fn digits(literal: Literal, suffix: &str) -> String {
    let text = literal.to_string();
    text.strip_suffix(suffix).unwrap_or_else(|| panic!("{text}")).to_string()
}

/// As the library converts it, by one rounding.
fn read_by_library(digits: &str, ty: Type) -> Value {
    convert_to(&ty.into(), &digits.parse::<f64>().unwrap().into()).unwrap()
}

#[test]
fn floats_read_back() {
    let mut draw = Draw(1);
    let edges = [0, 1, 0x7F_FFFF, 0x80_0000, 0x3F80_0000, 0x7F7F_FFFF, 0x4B7F_FFFF, 0x4B80_0000];
    let drawn: Vec<u32> = (0..20_000).map(|_| draw.bits() as u32).collect();
    for number in edges.into_iter().chain(drawn).map(f32::from_bits).filter(|number| number.is_finite()) {
        let text = digits(number.into(), "f");
        assert_eq!(text.parse::<f32>().unwrap().to_bits(), number.to_bits(), "{text}");
        // Also without the suffix, as a component.
        assert_eq!(Value::vector([number; 2]).to_string(), format!("vec2<f32>({text}, {text})"));
        assert_eq!(read_by_library(&text, Type::F32), number.into(), "{text}");
    }
    for number in (0..20_000).map(|_| f64::from_bits(draw.bits())).filter(|number| number.is_finite()) {
        let text = digits(number.into(), "");
        assert_eq!(text.parse::<f64>().unwrap().to_bits(), number.to_bits(), "{text}");
        assert!(text.contains(['.', 'e']), "{text} would be a whole number");
    }
}

/// The digits before the exponent as a whole number, and the power of ten that it is to be multiplied with.
fn decimal(text: &str) -> (u128, i32) {
    let (digits, power) = text.split_once('e').unwrap_or((text, "0"));
    let (whole, fraction) = digits.split_once('.').unwrap_or((digits, ""));
    let all = format!("{whole}{fraction}");
    let used = all.trim_end_matches('0');
    let power = power.parse::<i32>().unwrap() - fraction.len() as i32 + (all.len() - used.len()) as i32;
    (used.parse().unwrap(), power)
}

/// A finite F16, or the number that would come after the largest, in units of 10^-9 * 2^-25.
fn place(bits: u16) -> u128 {
    let number = if bits == 0x7C00 { 65536.0 } else { Literal::f16(bits).as_f64().unwrap() };
    (number * 2f64.powi(25)) as u128 * 10u128.pow(9)
}

/// A decimal in the same units.
fn decimal_place((digits, power): (u128, i32)) -> u128 {
    (digits << 25) * 10u128.pow((9 + power) as u32)
}

/// Whether the decimal rounds to the F16 above 0 that has these bits.
fn rounds_to(bits: u16, decimal: (u128, i32)) -> bool {
    let (low, high) = ((place(bits - 1) + place(bits)) / 2, (place(bits) + place(bits + 1)) / 2);
    let place = decimal_place(decimal);
    low < place && place < high || bits % 2 == 0 && (place == low || place == high)
}

/// The decimal rounds to the F16, none that has a digit less does, and none that has as many digits and does is nearer.
fn is_shortest(bits: u16, (digits, power): (u128, i32)) -> bool {
    let distance = |digits| decimal_place((digits, power)).abs_diff(place(bits));
    rounds_to(bits, (digits, power))
        && [digits / 10, digits / 10 + 1].iter().all(|fewer| !rounds_to(bits, (*fewer, power + 1)))
        && [digits - 1, digits + 1]
            .iter()
            .all(|beside| !rounds_to(bits, (*beside, power)) || distance(digits) <= distance(*beside))
}

#[test]
fn every_f16_has_the_fewest_digits() {
    let mut texts = HashSet::new();
    for bits in (0..=u16::MAX).filter(|bits| bits & 0x7C00 != 0x7C00) {
        let text = digits(Literal::f16(bits), "h");
        assert_eq!(read_by_library(&text, Type::F16), Literal::f16(bits).into(), "{text}");
        let (magnitude, unsigned) = (bits & 0x7FFF, text.trim_start_matches('-'));
        assert!(magnitude == 0 || is_shortest(magnitude, decimal(unsigned)), "{text}");
        assert!(texts.insert(text));
    }
    assert_eq!(texts.len(), 63_488);
}

#[test]
fn types_and_targets() {
    let station = Type::structure(1, [Type::F32, Type::array(3, Type::F32)]);
    are_written([
        (Type::vector(3, Kind::F32), "vec3<f32>"),
        (Type::vector(2, Kind::AbstractInt), "vec2<AbstractInt>"),
        (Type::matrix(4, 3, Kind::F16), "mat4x3<f16>"),
        (Type::array(3, Type::F32), "array<f32, 3>"),
        (Type::array(2, Type::array(65535, Type::vector(2, Kind::Bool))), "array<array<vec2<bool>, 65535>, 2>"),
        (station.clone(), "Struct1"),
        (Type::array(2, station.clone()), "array<Struct1, 2>"),
        // No types, but trees.
        (Type::vector(9, Kind::U32), "vec9<u32>"),
        (Type::matrix(0, 1, Kind::I32), "mat0x1<i32>"),
        (Type::array(0, Type::BOOL), "array<bool, 0>"),
        (Type::structure(65535, []), "Struct65535"),
    ]);
    are_written([
        (Target::from(Type::F32), "f32"),
        (Type::vector(3, Kind::F32).into(), "vec3<f32>"),
        (Target::Runtime(Type::F32), "array<f32>"),
        (Target::Runtime(station), "array<Struct1>"),
        (Target::Array, "array"),
        (Target::Vector(3), "vec3"),
        (Target::Matrix(3, 2), "mat3x2"),
    ]);
}

#[test]
fn values() {
    let chainage = Value::vector([0f32, 6204.75, 12410.0]);
    let valves = Value::array([1180.5f32, 4400.25, 9031.0]);
    let rows = Value::array([Value::array([1i32, -2]), Value::array([i32::MIN, 4])]);
    are_written([
        (Value::from(0.508f32), "0.508f"),
        (chainage.clone(), "vec3<f32>(0.0, 6204.75, 12410.0)"),
        (Value::vector([true, false]), "vec2<bool>(true, false)"),
        (Value::vector([1u32, 2, 3, 4]), "vec4<u32>(1, 2, 3, 4)"),
        (Value::vector([0x3C00, 0x0001].map(Literal::f16)), "vec2<f16>(1.0, 6e-8)"),
        (Value::matrix([[1f32, 2.0], [3.0, 4.0]]), "mat2x2<f32>(vec2<f32>(1.0, 2.0), vec2<f32>(3.0, 4.0))"),
        (valves.clone(), "array<f32, 3>(1180.5, 4400.25, 9031.0)"),
        (rows, "array<array<i32, 2>, 2>(array<i32, 2>(1, -2), array<i32, 2>(-2147483648, 4))"),
        (
            Value::array([Value::vector([1f32, 2.0]), Value::vector([3f32, 4.0])]),
            "array<vec2<f32>, 2>(vec2<f32>(1.0, 2.0), vec2<f32>(3.0, 4.0))",
        ),
        (
            Value::structure(1, [0.508f32.into(), chainage, valves]),
            "Struct1(0.508f, vec3<f32>(0.0, 6204.75, 12410.0), array<f32, 3>(1180.5, 4400.25, 9031.0))",
        ),
        (
            Value::array([1i32, i32::MIN].map(|number| Value::structure(7, [number.into(), true.into()]))),
            "array<Struct7, 2>(Struct7(1i, true), Struct7(i32(-2147483648), true))",
        ),
    ]);
}

#[test]
fn abstract_values_have_no_template() {
    are_written([
        (Value::from(3i64), "3"),
        (Value::vector([0.0, 1.5, 2.0]), "vec3(0.0, 1.5, 2.0)"),
        (Value::vector([i64::MIN, 0]), "vec2((-9223372036854775807 - 1), 0)"),
        (Value::matrix([[1.0, 2.0], [3.0, 4.0]]), "mat2x2(vec2(1.0, 2.0), vec2(3.0, 4.0))"),
        (Value::array([1i64, 2]), "array(1, 2)"),
        (Value::array([Value::vector([1i64, 2]), Value::vector([3i64, 4])]), "array(vec2(1, 2), vec2(3, 4))"),
        // A struct has a name whatever is in it.
        (
            Value::array([Value::structure(2, [1.5.into(), Value::array([1u32]), Value::array([2i64])])]),
            "array<Struct2, 1>(Struct2(1.5, array<u32, 1>(1), array(2)))",
        ),
    ]);
}

#[test]
fn trees_that_are_not_well_formed() {
    let mixed = Value::vector([Literal::from(1f32), Literal::from(2i32)]);
    are_written([
        (mixed.clone(), "vec2(1.0f, 2i)"),
        (Value::Vector(vec![]), "vec0()"),
        (Value::vector([1f32; 5]), "vec5(1.0f, 1.0f, 1.0f, 1.0f, 1.0f)"),
        (Value::Matrix(vec![]), "mat0x0()"),
        (Value::matrix([vec![1f32; 2], vec![2f32; 3]]), "mat2x2(vec2(1.0f, 1.0f), vec3(2.0f, 2.0f, 2.0f))"),
        (Value::matrix([[1u32, 2], [3, 4]]), "mat2x2(vec2(1u, 2u), vec2(3u, 4u))"),
        (Value::Array(vec![]), "array()"),
        (Value::array([Value::from(1f32), Value::from(2i32)]), "array(1.0f, 2i)"),
        (Value::array([Value::from(1f32), Value::vector([2f32, 3.0])]), "array(1.0f, vec2(2.0f, 3.0f))"),
        (Value::structure(3, []), "Struct3()"),
        // One part is enough.
        (Value::structure(3, [Value::vector([1f32, 2.0]), mixed]), "Struct3(vec2(1.0f, 2.0f), vec2(1.0f, 2i))"),
        (Value::vector([Literal { kind: Kind::U32, bits: 1 << 32 }, 1u32.into()]), "vec2(0u, 1u)"),
    ]);
    let nested = |depth| (0..depth).fold(Value::from(1f32), |inner, _| Value::array([inner])).to_string();
    assert_eq!(nested(2), "array<array<f32, 1>, 1>(array<f32, 1>(1.0))");
    assert!(nested(15).starts_with("array<array<") && nested(15).contains("array<f32, 1>(1.0)"));
    assert_eq!(nested(16), format!("{}1.0f{}", "array(".repeat(16), ")".repeat(16)));
    assert_eq!(nested(1000), format!("{}1.0f{}", "array(".repeat(1000), ")".repeat(1000)));
}

#[test]
fn long_values() {
    let text = Value::array(vec![1.5f32; 60_000]).to_string();
    assert_eq!(text, format!("array<f32, 60000>({})", vec!["1.5"; 60_000].join(", ")));
    let text = Value::array(vec![Value::vector([1i32, 2]); 30_000]).to_string();
    assert_eq!(text, format!("array<vec2<i32>, 30000>({})", vec!["vec2<i32>(1, 2)"; 30_000].join(", ")));
}
