//! The judging: of each class the right answer passes, wrong ones and wrong uses of the buffer are told.

use reference::{
    call::{Answer, Call, Entry, decode},
    classes::{Class, classified},
    hex::from_hex,
    refusals::Refusal,
};

use crate::{
    Options, compare,
    judge::{due, refused},
    lent::Lent,
    library::{self, Reply},
    tally::Tally,
};

fn call(entry: Entry, stage: u8, target: &str, args: &str) -> Call {
    let bytes = |text| from_hex(text).expect("hex");
    Call { entry, stage, target: bytes(target), args: bytes(args) }
}

fn record(hex: &str) -> Answer {
    Answer::Ok(from_hex(hex).expect("hex"))
}

fn count(wanted: usize, given: usize) -> Answer {
    Answer::No(Refusal { number: Some(8), counts: Some((wanted, given)) })
}

/// A library that gives this answer and uses the buffer as it should.
fn gives(answer: &Answer, out: &mut [u8]) -> Reply {
    match answer {
        Answer::Ok(bytes) if bytes.len() > out.len() => Reply::Refused(Refusal::new(22)),
        Answer::Ok(bytes) => {
            out[..bytes.len()].copy_from_slice(bytes);
            Reply::Record(bytes.len())
        }
        Answer::Rank(rank) => Reply::Rank(*rank),
        Answer::No(refusal) => Reply::Refused(*refusal),
        Answer::Panic => panic!("the library answers"),
    }
}

/// The call is of the class, the right answer passes, and every wrong one is told as it is.
fn judged(class: Class, call: Call, right: Answer, wrong: &[Answer]) {
    let (found, theirs) = classified(&decode(&call).expect("well formed"));
    assert_eq!(found, class, "{call}");
    let due = due(class, &call, &theirs);
    let check = |ours: &Answer| Lent::new().check(due.as_deref(), |out| gives(ours, out));
    assert_eq!(check(&right), Ok(()), "{call}");
    for ours in wrong {
        assert_eq!(check(ours), Err(ours.to_string()), "{call}");
    }
    assert_eq!(Lent::new().check(due.as_deref(), |out| library::reply(&call, out)), Ok(()), "{call}");
}

const F32_NAN: &str = "5673050000c07f00000000";
const ABSTRACT_NAN: &str = "567302000000000000f87f";
const ABSTRACT_ONE: &str = "567302000000000000f03f";

#[test]
fn same() {
    let made = "5676025673050000803f000000005673050000803f00000000";
    judged(
        Class::Same,
        call(Entry::CallCtor, 0, "547602547305", "5673010100000000000000"),
        record(made),
        &[
            record("5676025673050000803f000000005673050000803e00000000"),
            record("5673050000803f00000000"),
            record("-"),
            refused(9),
            refused(22),
            Answer::Rank(0),
            Answer::No(Refusal::UNKNOWN),
        ],
    );
    judged(
        Class::Same,
        call(Entry::CallCtor, 0, "54610300547303", "56730301000000000000005673030200000000000000"),
        count(3, 2),
        &[count(2, 3), count(3, 3), refused(8), refused(9), record("5673030100000000000000")],
    );
    judged(
        Class::Same,
        call(Entry::TypeCtor, 0, "517602", "547305"),
        record("547602547305"),
        &[record("547602547306"), refused(12)],
    );
    judged(
        Class::Same,
        call(Entry::ConversionRank, 0, "547305", "547302"),
        Answer::Rank(1),
        &[Answer::Rank(0), Answer::Rank(2), refused(9), record("-")],
    );
    judged(
        Class::Same,
        call(Entry::ConversionRank, 0, "547303", "547302"),
        refused(9),
        &[Answer::Rank(0), refused(10)],
    );
}

#[test]
fn nan_bits() {
    judged(
        Class::NanBits,
        call(Entry::CallCtor, 0, "547305", "56730655fe000000000000"),
        record(F32_NAN),
        &[
            // the Rust's own bits, infinity, a number, a NaN of another kind
            record("56730500a0caff00000000"),
            record("567305000080ff00000000"),
            record("5673050000803f00000000"),
            record("567306007e000000000000"),
            refused(21),
        ],
    );
}

#[test]
fn half() {
    judged(
        Class::Half,
        call(Entry::ConvertTo, 0, "547306", "567302000000100002f03f"),
        record("567306013c000000000000"),
        &[record("567306003c000000000000"), refused(9)],
    );
}

#[test]
fn rows() {
    let wrong = [record("546d0202547305"), count(2, 2), refused(13)];
    judged(Class::Rows, call(Entry::TypeCtor, 0, "516d0202", "547603547305547603547305"), refused(14), &wrong);
    judged(Class::Rows, call(Entry::TypeCtor, 0, "516d0202", "547603547305"), refused(14), &[count(2, 1)]);
}

#[test]
fn wrap() {
    let args = "547604547305".repeat(64) + "547602547305";
    let wrong = [record("547602547305"), count(2, 258), count(2, 2), count(65, 2), refused(8), refused(12)];
    judged(Class::Wrap, call(Entry::TypeCtor, 0, "517602", &args), count(2, 65), &wrong);
    judged(Class::Wrap, call(Entry::TypeCtor, 0, "547602547305", &args), count(2, 65), &wrong);
}

#[test]
fn nan_fits() {
    let accepted = record(F32_NAN);
    let nine = |call| judged(Class::NanFits, call, refused(9), &[refused(10), refused(21), accepted.clone()]);
    let ten = |call| judged(Class::NanFits, call, refused(10), &[refused(9), refused(21), accepted.clone()]);
    nine(call(Entry::ConvertTo, 0, "547305", ABSTRACT_NAN));
    nine(call(Entry::CallCtor, 1, "547500000100547306", ABSTRACT_NAN));
    ten(call(Entry::CallCtor, 2, "517602", &format!("{ABSTRACT_NAN}5673050000803f00000000")));
    ten(call(Entry::CallCtor, 0, "546d0202547305", &ABSTRACT_NAN.repeat(4)));
    // a matrix that is converted, not built
    let column = format!("567602{}", ABSTRACT_NAN.repeat(2));
    nine(call(Entry::ConvertTo, 0, "546d0202547305", &format!("566d0202{column}{column}")));
}

#[test]
fn override_is_checked() {
    let (past, infinity) = ("567302000000000000f047", "5673050000807f00000000"); // 2^128
    let wrong = [record(infinity), record(F32_NAN), refused(9), refused(22)];
    let at = |stage, target, args: &str| call(Entry::CallCtor, stage, target, args);
    let refuses = |target, args: &str| judged(Class::Override, at(1, target, args), refused(21), &wrong);
    refuses("547305", past);
    refuses("547305", ABSTRACT_NAN);
    refuses("547602547305", &format!("567602{ABSTRACT_ONE}{past}"));
    let column = "567602".to_string() + &"5673050000804700000000".repeat(2); // 65536
    refuses("546d0202547306", &format!("566d0202{column}{column}"));
    // where the Rust has one answer at Const and at Override, the class is that of the call at Const
    judged(Class::Same, at(1, "547305", ABSTRACT_ONE), record("5673050000803f00000000"), &wrong);
    judged(Class::NanBits, at(1, "547305", "56730655fe000000000000"), record(F32_NAN), &[refused(21)]);
    // at Exec it is the Rust's own
    judged(Class::Same, at(2, "547305", past), record(infinity), &[refused(21)]);
}

#[test]
fn nothing_is_due_without_an_answer_of_the_rust() {
    let call = call(Entry::CallCtor, 0, "547305", "5673010100000000000000");
    for theirs in [Answer::Panic, Answer::No(Refusal::UNKNOWN)] {
        for class in [Class::Same, Class::Half, Class::NanBits] {
            let due = due(class, &call, &theirs);
            for ours in [Answer::No(Refusal::UNKNOWN), refused(9), record(F32_NAN)] {
                assert_eq!(Lent::new().check(due.as_deref(), |out| gives(&ours, out)), Err(ours.to_string()));
            }
        }
    }
}

/// What is said of a library that should give `due`, and then that the buffer is as it was for the next call.
fn said(due: &Answer, entry: impl Fn(&mut [u8]) -> Reply) -> String {
    let mut lent = Lent::new();
    let said = lent.check(Some(due), entry).expect_err("a wrong use of the buffer");
    assert_eq!(lent.check(Some(due), |out| gives(due, out)), Ok(()));
    said
}

#[test]
fn wrong_uses_of_the_buffer() {
    let due = record(F32_NAN);
    let spoilt = |at: usize, when: fn(usize) -> bool| {
        move |out: &mut [u8]| {
            let reply = gives(&record(F32_NAN), out);
            if when(out.len()) {
                out[at] = 1;
            }
            reply
        }
    };
    let outside = "writes bytes that are not the record's";
    assert_eq!(said(&due, spoilt(11, |room| room > 11)), outside);
    assert_eq!(said(&due, spoilt(65535, |room| room > 11)), outside);
    assert_eq!(said(&due, spoilt(0, |room| room < 11)), outside);
    assert_eq!(said(&due, spoilt(0, |room| room == 11)), "with a buffer of 11 bytes ok 0173050000c07f00000000");
    let written = |out: &mut [u8]| {
        out[0] = 1;
        Reply::Refused(Refusal::new(9))
    };
    assert_eq!(said(&refused(9), written), outside);

    let below = |room: usize, other: Answer| {
        let due = due.clone();
        move |out: &mut [u8]| gives(if out.len() < room { &other } else { &due }, out)
    };
    assert_eq!(said(&due, below(12, Answer::Rank(0))), "with a buffer of 11 bytes rank 0");
    assert_eq!(said(&due, below(11, refused(9))), "with a buffer of 10 bytes no 9");
    let too_long = |out: &mut [u8]| if out.len() < 11 { Reply::Record(11) } else { gives(&due, out) };
    assert_eq!(said(&due, too_long), "a record of 11 bytes in a buffer of 10");
}

#[test]
fn a_record_longer_than_the_usual_buffer() {
    // 6,000 zeros of F32: 66,004 bytes
    let call = call(Entry::CallCtor, 0, "54617017547305", "-");
    let (class, theirs) = classified(&decode(&call).expect("well formed"));
    let Answer::Ok(bytes) = &theirs else { panic!("{theirs}") };
    assert_eq!((class, bytes.len()), (Class::Same, 66_004));
    assert_eq!(Lent::new().check(Some(&theirs), |out| library::reply(&call, out)), Ok(()));
}

/// Right but for some calls.
fn at_times_wrong(call: &Call, out: &mut [u8]) -> Reply {
    let sum = call.args.iter().fold(0u8, |sum, byte| sum.wrapping_mul(31).wrapping_add(*byte));
    if sum == 7 { Reply::Refused(Refusal::new(1)) } else { library::reply(call, out) }
}

#[test]
fn the_threads_do_not_show() {
    let tally = |threads| {
        let mut tally = compare(&Options { calls: 12_000, seed: 3, entry: None, threads }, at_times_wrong);
        tally.spent = Default::default();
        tally
    };
    let one = tally(1);
    assert_eq!(one.calls(), 12_000);
    assert!(one.differing() > 10, "{one:?}");
    assert_eq!(one, tally(2));
    assert_eq!(one, tally(3));
}

#[test]
fn the_first_differences_are_kept_whoever_found_them() {
    let call = call(Entry::ConversionRank, 0, "547303", "547302");
    let tally = |places: &mut dyn Iterator<Item = usize>| {
        let mut tally = Tally::default();
        places.for_each(|at| tally.add(at, &call, (Class::Same, &refused(9)), Some(format!("rank {at}"))));
        tally
    };
    let (even, odd) = (|| tally(&mut (0..40).step_by(2)), || tally(&mut (1..40).step_by(2)));
    let all = tally(&mut (0..40));
    assert_eq!(even().joined(odd()), all);
    assert_eq!(odd().joined(even()), all);
}

#[test]
fn options() {
    let read = |words: &str| Options::read(&words.split_whitespace().map(String::from).collect::<Vec<_>>());
    let some = |calls, seed, entry, threads| Some(Options { calls, seed, entry, threads });
    assert_eq!(read(""), some(100_000, 1, None, 2));
    assert_eq!(read("7"), some(7, 1, None, 2));
    assert_eq!(read("7 9 --entry type_ctor --threads 1"), some(7, 9, Some(Entry::TypeCtor), 1));
    assert_eq!(read("--entry convert_to 7"), some(7, 1, Some(Entry::ConvertTo), 2));
    for bad in ["0", "7 8 9", "x", "7 -1", "--entry", "--entry bool", "--threads 0", "--seed 1"] {
        assert_eq!(read(bad), None, "{bad}");
    }
}
