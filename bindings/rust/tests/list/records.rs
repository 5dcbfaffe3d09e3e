//! Records to trees and back: every record of the fixed list, damaged ones, and the limits. What is well formed, the
//! library says too: `convert_to` and `conversion_rank` refuse with 2 exactly where their argument is not one
//! well-formed record.
use crate::lines::{lines, Answer};
use vireodesk::*;

fn library_takes_value(bytes: &[u8]) -> bool {
    convert_to_bytes(b"Ts\x05", bytes, &mut [0; 16]) != Err(Refusal::BadArgument)
}

fn library_takes_type(bytes: &[u8]) -> bool {
    conversion_rank_bytes(b"Ts\x05", bytes) != Err(Refusal::BadArgument)
}

fn library_takes_target(bytes: &[u8]) -> bool {
    call_ctor_bytes(0, bytes, b"", &mut []) != Err(Refusal::BadTarget)
}

fn values_return(bytes: &[u8]) -> Vec<Value> {
    let values = Value::decode_list(bytes).expect("well formed");
    let back: Vec<u8> = values.iter().flat_map(|value| value.encode().expect("it has a record")).collect();
    assert_eq!(back, bytes);
    values
}

fn types_return(bytes: &[u8]) -> Vec<Type> {
    let types = Type::decode_list(bytes).expect("well formed");
    let back: Vec<u8> = types.iter().flat_map(|ty| ty.encode().expect("it has a record")).collect();
    assert_eq!(back, bytes);
    types
}

#[test]
fn every_record_of_the_list_returns() {
    for line in lines() {
        assert_eq!(Target::decode(&line.target).expect("well formed").encode().expect("it has a record"), line.target);
        let of_values = ["call_ctor", "convert_to"].contains(&line.entry.as_str());
        let mut read = vec![&line.args];
        if let Answer::Record(record) = &line.answer {
            read.push(record);
        }
        for bytes in read {
            if of_values {
                for value in values_return(bytes) {
                    let ty = value.ty().expect("a well-formed value has a type");
                    assert_eq!(types_return(&ty.encode().expect("it has a record")), [ty]);
                }
            } else {
                types_return(bytes);
            }
        }
    }
}

#[test]
fn decode_takes_what_the_library_takes() {
    let (mut tried, mut taken) = (0, 0);
    let mut judge = |bytes: &[u8], of_values: bool| {
        let here = if of_values { Value::decode(bytes).is_ok() } else { Type::decode(bytes).is_ok() };
        let there = if of_values { library_takes_value(bytes) } else { library_takes_type(bytes) };
        assert_eq!(here, there, "{bytes:02x?}");
        tried += 1;
        taken += usize::from(here);
    };
    for line in lines() {
        let of_values = ["call_ctor", "convert_to"].contains(&line.entry.as_str());
        let mut bytes = line.args;
        judge(&bytes, of_values);
        // One byte in seven is damaged, each in several ways, beginning at a place that moves with the line; and the
        // record is cut there.
        for at in (line.number % 7..bytes.len()).step_by(7) {
            judge(&bytes[..at], of_values);
            let kept = bytes[at];
            for damage in [0, 1, 2, 3, 5, 7, kept ^ 0x80, kept.wrapping_add(1)] {
                bytes[at] = damage;
                judge(&bytes, of_values);
            }
            bytes[at] = kept;
        }
        let mut target = line.target;
        for at in 0..target.len() {
            let kept = target[at];
            for damage in [0, 1, 2, 4, 5, 7, b'r', b'a', b'Q', kept.wrapping_add(1)] {
                target[at] = damage;
                assert_eq!(Target::decode(&target).is_ok(), library_takes_target(&target), "{target:02x?}");
            }
            target[at] = kept;
        }
    }
    assert!(taken > 10_000 && tried - taken > 10_000, "{taken} taken of {tried}");
}

#[test]
fn limits() {
    let agree = |ty: &Type, good: bool| {
        let bytes = ty.encode().expect("it has a record");
        assert_eq!((Type::decode(&bytes).is_ok(), library_takes_type(&bytes)), (good, good));
    };
    let members = |count| Type::structure(0, vec![Type::F32; count]);
    agree(&members(1023), true);
    agree(&members(1024), false);
    agree(&members(0), false);
    // 6 bytes, 7 for each array and 3 for each scalar.
    let padded = |arrays: usize, scalars: usize| {
        Type::structure(0, [vec![Type::array(1, Type::F32); arrays], vec![Type::F32; scalars]].concat())
    };
    assert_eq!(padded(256, 766).encode().map(|bytes| bytes.len()), Ok(4096));
    agree(&padded(256, 766), true);
    assert_eq!(padded(257, 764).encode().map(|bytes| bytes.len()), Ok(4097));
    agree(&padded(257, 764), false);
    agree(&Type::array(0, Type::F32), false);
    agree(&Type::matrix(2, 2, Kind::I32), false);

    // Depth 15 passes for a scalar under 15 arrays, a vector under 14, a matrix under 13; one array more is malformed.
    let (row, square) = (Value::vector([1f32; 2]), Value::matrix([[1f32; 2]; 2]));
    for (depth, part) in [(0, Value::from(1f32)), (1, row), (2, square)] {
        let nested = |levels| (0..levels).fold(part.clone(), |inner, _| Value::array([inner]));
        let most = nested(15 - depth);
        let bytes = most.encode().expect("depth 15 has a record");
        assert_eq!((Value::decode(&bytes).as_ref(), library_takes_value(&bytes)), (Ok(&most), true));
        let ty = most.ty().expect("depth 15 has a type");
        agree(&ty, true);
        // The same by hand one level deeper, since encode has no record for it.
        let (value, ty) = ([b"Va\x01\x00", &bytes[..]].concat(), [b"Ta\x01\x00", &ty.encode().unwrap()[..]].concat());
        assert!(nested(16 - depth).encode().is_err());
        assert_eq!((Value::decode(&value).is_ok(), library_takes_value(&value)), (false, false));
        assert_eq!((Type::decode(&ty).is_ok(), library_takes_type(&ty)), (false, false));
        // A runtime-sized array is one level too.
        let runtime = [b"Tr", &ty[8..]].concat();
        assert_eq!((Target::decode(&runtime).is_ok(), library_takes_target(&runtime)), (true, true));
        let runtime = [b"Tr", &ty[4..]].concat();
        assert_eq!((Target::decode(&runtime).is_ok(), library_takes_target(&runtime)), (false, false));
    }

    // A runtime-sized array has at most 4,094 bytes.
    for (arrays, scalars, good) in [(255, 767, true), (256, 765, false)] {
        let runtime = Target::Runtime(padded(arrays, scalars)).encode().expect("it has a record");
        assert_eq!(runtime.len(), if good { 4094 } else { 4095 });
        assert_eq!((Target::decode(&runtime).is_ok(), library_takes_target(&runtime)), (good, good));
    }

    // Hostile bytes end soon: an array of arrays, each said to be full, with nothing in it.
    let hostile: Vec<u8> = b"Va\xff\xff".repeat(100_000);
    assert_eq!(Value::decode(&hostile).unwrap_err().to_string(), "malformed at byte 60: deeper than 15");
    assert_eq!(Value::decode(b"Vs\x07").unwrap_err().at(), 2);
    assert!(Type::decode(b"").is_err() && Type::decode_list(b"") == Ok(vec![]));
}
