//! Every call of the fixed list, through the functions over bytes and through those over trees.
use crate::lines::{lines, Answer, Line};
use vireodesk::*;

/// What documents 01 and 02 answer to the line, by its class (reference/README.md).
fn due(line: &Line) -> Answer {
    match line.class.as_str() {
        "rows" => Answer::No(14, None),
        "nan-fits" => {
            let by_ten = line.target[0] == b'Q' || line.target[1] == b'm';
            Answer::No(if line.entry == "call_ctor" && by_ten { 10 } else { 9 }, None)
        }
        "wrap" => {
            let given = Type::decode_list(&line.args).expect("the list's types are well formed").len();
            Answer::No(8, Some((line.target[2].into(), given as u64)))
        }
        "same" | "half" | "nan-bits" | "override" => line.answer.clone(),
        other => panic!("line {}: the class {other} is not known", line.number),
    }
}

/// The answer, with NaNs of F32 and F16 made one where the class is that of their bits.
fn comparable(line: &Line, answer: Answer) -> Answer {
    match answer {
        Answer::Record(record) if line.class == "nan-bits" => {
            let mut value = Value::decode(&record).expect("a well-formed record");
            one_nan(&mut value);
            Answer::Record(value.encode().expect("it had a record"))
        }
        other => other,
    }
}

fn one_nan(value: &mut Value) {
    let literal = |literal: &mut Literal| match literal.kind {
        Kind::F32 if literal.bits & 0x7FFF_FFFF > 0x7F80_0000 => literal.bits = 0x7FC0_0000,
        Kind::F16 if literal.bits & 0x7FFF > 0x7C00 => literal.bits = 0x7E00,
        _ => {}
    };
    match value {
        Value::Scalar(one) => literal(one),
        Value::Vector(components) => components.iter_mut().for_each(literal),
        Value::Matrix(columns) => columns.iter_mut().flatten().for_each(literal),
        Value::Array(parts) | Value::Struct { members: parts, .. } => parts.iter_mut().for_each(one_nan),
    }
}

fn refused(refusal: Refusal) -> Answer {
    let counts = match refusal {
        Refusal::Count { wanted, given } => Some((wanted, given)),
        _ => None,
    };
    Answer::No(refusal.number(), counts)
}

/// The call over bytes. Also: a refusal leaves the buffer alone, and a record the bytes past it.
fn by_bytes(line: &Line, room: usize) -> Answer {
    let mut out = vec![0xA5; room];
    let answer = match line.entry.as_str() {
        "call_ctor" => call_ctor_bytes(line.stage, &line.target, &line.args, &mut out),
        "type_ctor" => type_ctor_bytes(&line.target, &line.args, &mut out),
        "convert_to" => convert_to_bytes(&line.target, &line.args, &mut out),
        "conversion_rank" => {
            return conversion_rank_bytes(&line.target, &line.args).map_or_else(refused, Answer::Rank);
        }
        other => panic!("line {}: the entry {other} is not known", line.number),
    };
    let past = *answer.as_ref().unwrap_or(&0);
    assert!(out[past..].iter().all(|byte| *byte == 0xA5), "line {}: written past the record", line.number);
    out.truncate(past);
    answer.map_or_else(refused, |_| Answer::Record(out))
}

fn by_trees(line: &Line) -> Answer {
    let target = Target::decode(&line.target).expect("the list's targets are well formed");
    let types = || Type::decode_list(&line.args).expect("the list's types are well formed");
    let values = || Value::decode_list(&line.args).expect("the list's values are well formed");
    let stage = Stage::try_from(line.stage).expect("the list's stages are stages");
    let record = |record: Result<Vec<u8>, Malformed>| Answer::Record(record.expect("it has a record"));
    match line.entry.as_str() {
        "call_ctor" => call_ctor(stage, &target, &values()).map_or_else(refused, |value| record(value.encode())),
        "type_ctor" => type_ctor(&target, &types()).map_or_else(refused, |ty| record(ty.encode())),
        "convert_to" => convert_to(&target, &values()[0]).map_or_else(refused, |value| record(value.encode())),
        _ => conversion_rank(&target, &types()[0]).map_or_else(refused, Answer::Rank),
    }
}

#[test]
fn the_whole_list() {
    for line in lines() {
        let due = comparable(&line, due(&line));
        assert_eq!(comparable(&line, by_bytes(&line, 4096)), due, "line {}, over bytes", line.number);
        assert_eq!(comparable(&line, by_trees(&line)), due, "line {}, over trees", line.number);
        // The record's own length is room enough; one byte less is 22.
        if let Answer::Record(record) = &due {
            let exact = by_bytes(&line, record.len());
            assert_eq!(comparable(&line, exact), due, "line {}, room for the record alone", line.number);
            assert_eq!(
                by_bytes(&line, record.len() - 1),
                Answer::No(22, None),
                "line {}, too little room",
                line.number
            );
            // What `convert_to` makes room for: the argument's length. For `call_ctor` see batches.rs.
            if line.entry == "convert_to" {
                assert_eq!(record.len(), line.args.len(), "line {}, the converted length", line.number);
            }
        }
    }
}
