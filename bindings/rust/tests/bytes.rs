//! The functions on bytes, one call of each that is accepted and one that is refused, with and without the feature
//! `std`; and what the crate has besides without it.
use vireodesk::*;

const VEC2: &[u8] = b"Tv\x02Ts\x05";
const F32: &[u8] = b"Ts\x05";

/// An AbstractInt 1, and an F32 1.0.
const ONE: &[u8] = b"Vs\x01\x01\0\0\0\0\0\0\0";
const ONE_F32: &[u8] = b"Vs\x05\0\0\x80\x3F\0\0\0\0";

const FILL: u8 = 0xA5;

/// The call's answer, with a buffer of which it may fill the front alone.
fn writes(call: impl FnOnce(&mut [u8]) -> Result<usize, Refusal>, due: &[u8]) {
    let mut out = [FILL; 64];
    assert_eq!(call(&mut out), Ok(due.len()));
    assert_eq!(&out[..due.len()], due);
    assert!(out[due.len()..].iter().all(|byte| *byte == FILL));
}

/// The call's refusal, with a buffer that it leaves as it was.
fn refused(call: impl FnOnce(&mut [u8]) -> Result<usize, Refusal>) -> Refusal {
    let mut out = [FILL; 64];
    let refusal = call(&mut out).unwrap_err();
    assert_eq!(out, [FILL; 64]);
    refusal
}

#[test]
fn building() {
    writes(|out| call_ctor_bytes(0, VEC2, ONE, out), b"Vv\x02Vs\x05\0\0\x80\x3F\0\0\0\0Vs\x05\0\0\x80\x3F\0\0\0\0");
    let three = [ONE, ONE, ONE].concat();
    assert_eq!(refused(|out| call_ctor_bytes(0, VEC2, &three, out)), Refusal::Count { wanted: 2, given: 3 });
    // A stage over 2 comes before anything else.
    assert_eq!(refused(|out| call_ctor_bytes(3, b"", b"", out)), Refusal::NoStage);
    assert_eq!(call_ctor_bytes(0, VEC2, ONE, &mut [0; 24]), Err(Refusal::NoRoom));
}

#[test]
fn typing() {
    writes(|out| type_ctor_bytes(b"Qv\x02", b"Ts\x05Ts\x01", out), VEC2);
    assert_eq!(refused(|out| type_ctor_bytes(b"TrTs\x05", F32, out)), Refusal::NotTyped);
}

#[test]
fn conversion() {
    writes(|out| convert_to_bytes(F32, ONE, out), ONE_F32);
    assert_eq!(refused(|out| convert_to_bytes(b"Ts\x00", ONE, out)), Refusal::NoConversion);
}

#[test]
fn rank() {
    assert_eq!(conversion_rank_bytes(F32, b"Ts\x01"), Ok(6));
    assert_eq!(conversion_rank_bytes(b"Qa", b"Ts\x01"), Err(Refusal::BadTarget));
}

#[test]
fn batch() {
    let bytes = [F32, ONE].concat();
    let (target, args) = (Part { start: 0, len: 3 }, Part { start: 3, len: 11 });
    let mut jobs = [Job::new(0, target, args), Job::new(9, target, args), Job::new(2, target, args)];
    writes(|out| call_batch_bytes(&bytes, &mut jobs, out), &ONE_F32.repeat(2));
    assert_eq!(jobs.map(|job| job.result()), [Ok(0..11), Err(Refusal::NoStage), Ok(11..22)]);
    assert_eq!(jobs.map(|job| job.at()), [0, 11, 11]);
    assert_eq!(refused(|out| call_batch_bytes(F32, &mut jobs, out)), Refusal::PartOutside);
    assert_eq!(refused(|out| call_batch_bytes(&bytes, &mut [jobs[0]; MOST_JOBS + 1], out)), Refusal::TooManyJobs);
}

#[test]
fn to_memory() {
    writes(|out| write_layout_bytes(ONE_F32, out), &1f32.to_le_bytes());
    assert_eq!(refused(|out| write_layout_bytes(ONE, out)), Refusal::NoLayout);
}

#[test]
fn from_memory() {
    writes(|out| read_layout_bytes(F32, &1f32.to_le_bytes(), out), ONE_F32);
    assert_eq!(refused(|out| read_layout_bytes(F32, b"12345", out)), Refusal::MemorySize);
}

#[test]
fn layout() {
    assert_eq!(layout_of_bytes(b"Tv\x03Ts\x05"), Ok((12, 16)));
    assert_eq!(layout_of_bytes(b"Ts\x00"), Err(Refusal::NoLayout));
}

#[test]
fn in_words() {
    let refusal: &dyn std::error::Error = &Refusal::NoStage;
    assert_eq!(refusal.to_string(), "refusal 3: The stage is over 2. 0 is Const, 1 Override, 2 Exec.");
    let malformed: &dyn std::error::Error = &Kind::try_from(7).unwrap_err();
    assert_eq!(malformed.to_string(), "malformed at byte 0: a kind over 6");
    assert_eq!((Stage::Exec.to_string(), Kind::F16.to_string()), ("Exec".into(), "f16".into()));
    assert_eq!([Literal::from(0.508f32), Literal::f16(0x3E00)].map(|literal| literal.to_string()), ["0.508f", "1.5h"]);
    assert_eq!((Literal::from(3i64).as_f64(), Literal::f16(0x3E00).as_f64()), (Some(3.0), Some(1.5)));
}
