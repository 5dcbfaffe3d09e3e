//! The records that are read are written back byte for byte, the source's own answers at Override, and the named cases of document 01.

use reference::{
    call::{Call, Decoded, Entry, answer, decode},
    classes::{Class, classified},
    generate,
    hex::from_hex,
    records::{read_target, write_target, write_type, write_value},
};

fn written_args(call: &Decoded) -> Vec<u8> {
    let mut out = Vec::new();
    match call {
        Decoded::CallCtor { args, .. } => args.iter().try_for_each(|a| write_value(a, &mut out)),
        Decoded::TypeCtor { args, .. } => args.iter().try_for_each(|a| write_type(a, &mut out)),
        Decoded::ConvertTo { arg, .. } => write_value(arg, &mut out),
        Decoded::ConversionRank { arg, .. } => write_type(arg, &mut out),
    }
    .expect("record");
    out
}

#[test]
fn records_are_written_back() {
    for call in generate::calls(7, 20_000, None) {
        let decoded = decode(&call).expect("well formed");
        assert_eq!(written_args(&decoded), call.args);
        let mut target = Vec::new();
        write_target(&read_target(&call.target).expect("target"), &mut target).expect("record");
        assert_eq!(target, call.target);
    }
}

#[test]
fn calls_follow_from_the_seed() {
    let list = |seed| generate::calls(seed, 6_000, None).collect::<Vec<_>>();
    assert_eq!(list(1), list(1));
    assert_ne!(list(1), list(2));
}

/// At Override the source answers as at Exec, and lists take its answer at Const: the class `override` is where the two differ.
#[test]
fn override_is_the_sources_exec() {
    let mut differing = 0;
    for call in generate::calls(7, 20_000, Some(Entry::CallCtor)) {
        let at = |stage| decode(&Call { stage, ..call.clone() }).expect("well formed");
        assert_eq!(answer(&at(1)), answer(&at(2)), "{call}");
        let ((at_const, due), (at_override, taken)) = (classified(&at(0)), classified(&at(1)));
        assert_eq!(taken, due, "{call}");
        assert_eq!(at_override == Class::Override, answer(&at(0)) != answer(&at(1)), "{call}");
        assert!(at_override == at_const || at_override == Class::Override, "{call}");
        differing += usize::from(at_override == Class::Override);
    }
    assert!(differing > 100, "{differing}");
}

fn line(entry: Entry, stage: u8, target: &str, args: &str) -> String {
    let bytes = |text| from_hex(text).expect("hex");
    let call = Call { entry, stage, target: bytes(target), args: bytes(args) };
    let (class, answer) = classified(&decode(&call).expect("well formed"));
    format!("{} {answer}", class.name())
}

#[test]
fn named_cases() {
    use Entry::{CallCtor, ConvertTo, TypeCtor};
    let cases = [
        (
            CallCtor,
            0,
            "547602547305",
            "5673010100000000000000",
            "same ok 5676025673050000803f000000005673050000803f00000000",
        ),
        (CallCtor, 2, "547303", "5673050000004f00000000", "same ok 56730380ffff7f00000000"),
        (CallCtor, 2, "547304", "5673050000804f00000000", "same ok 56730400ffffff00000000"),
        (CallCtor, 2, "547303", "567306007c000000000000", "same ok 567303e0ff000000000000"),
        (CallCtor, 0, "547305", "5673010100000100000000", "same ok 5673050000804b00000000"),
        (CallCtor, 2, "547306", "567302001000000002f03f", "same ok 567306003c000000000000"),
        (ConvertTo, 0, "547306", "567302001000000002f03f", "half ok 567306013c000000000000"),
        (ConvertTo, 0, "547306", "567301efff000000000000", "same ok 567306ff7b000000000000"),
        (ConvertTo, 0, "547306", "567301f0ff000000000000", "same no 9"),
        (CallCtor, 0, "547306", "567301e1ff000000000000", "same no 21"),
        (CallCtor, 1, "547306", "567301e1ff000000000000", "override no 21"),
        (CallCtor, 2, "547306", "567301e1ff000000000000", "same ok 567306ff7b000000000000"),
        (CallCtor, 0, "547305", "567302000000e8ffffef47", "same no 21"),
        (CallCtor, 1, "547305", "567302000000e8ffffef47", "override no 21"),
        (ConvertTo, 0, "547305", "567302000000e8ffffef47", "same ok 567305ffff7f7f00000000"),
        (CallCtor, 0, "547300", "5673050000c07f00000000", "same ok 5673000100000000000000"),
        (CallCtor, 0, "547300", "5673050000008000000000", "same ok 5673000000000000000000"),
        (TypeCtor, 0, "517602", "547303547302", "same no 10"),
        (TypeCtor, 0, "516d0202", "547603547305547603547305", "rows ok 546d0202547305"),
        (CallCtor, 0, "54610300547303", "56730301000000000000005673030200000000000000", "same no 8 3 2"),
        (TypeCtor, 0, "54610300547303", "547303547303", "same ok 54610300547303"),
    ];
    for (entry, stage, target, args, expected) in cases {
        assert_eq!(line(entry, stage, target, args), expected, "{target} {args}");
    }
}
