//! The entries over trees.

use std::slice::from_ref;

use crate::{
    call_ctor_bytes, conversion_rank_bytes, convert_to_bytes,
    record::{Record, DEPTH, TYPE_LENGTH},
    type_ctor_bytes, Refusal, Stage, Target, Type, Value,
};

/// The longest record that [`call_ctor`], [`convert_to`] and a job of a [`Route`](crate::Route) make room for, 16 MiB;
/// a longer one is refusal 22. A type record is never near it.
pub const LONGEST: usize = 16 << 20;

/// Building: what the target's constructor makes of the arguments at a stage.
pub fn call_ctor(stage: Stage, target: &Target, args: &[Value]) -> Result<Value, Refusal> {
    let args = args_bytes(args);
    let (target, room) = with_room(target, || target.result_length(args.len()));
    build(stage.number(), &target, &args, room)
}

/// Typing: the type of what the target's constructor makes, from the types of its arguments.
pub fn type_ctor(target: &Target, args: &[Type]) -> Result<Type, Refusal> {
    let mut out = [0; TYPE_LENGTH];
    let length = type_ctor_bytes(&target_bytes(target), &args_bytes(args), &mut out)?;
    Ok(Type::decode(&out[..length]).expect(WHOLE))
}

/// Conversion without a constructor: the value as the target's type.
pub fn convert_to(target: &Target, value: &Value) -> Result<Value, Refusal> {
    let args = args_bytes(from_ref(value));
    // Kinds change, and with them no lengths.
    let (target, room) = with_room(target, || args.len());
    made(room, |out| convert_to_bytes(&target, &args, out))
}

/// The rank of the conversion from a type to the target, 0 to 7: 0 for an equal type, and the lower of two is the
/// better.
pub fn conversion_rank(target: &Target, ty: &Type) -> Result<u8, Refusal> {
    conversion_rank_bytes(&target_bytes(target), &args_bytes(from_ref(ty)))
}

/// It is proved of every accepted call that its record is well formed, so reading it back can't fail.
const WHOLE: &str = "an accepted call answers a well-formed record";

/// Stands for a tree without a record: it begins none, so the library refuses it, in its turn, with 1 or 2.
const NO_RECORD: [u8; 1] = [0];

/// The target's record, and the length of the record that an accepted call makes. A target without a record is refused,
/// which takes no room. Of one that has a record the depth is bounded, and so is the recursion that finds the length.
pub(crate) fn with_room(target: &Target, length: impl FnOnce() -> usize) -> (Vec<u8>, usize) {
    match target.encode() {
        Ok(record) => (record, length()),
        Err(_) => (NO_RECORD.to_vec(), 0),
    }
}

fn target_bytes(target: &Target) -> Vec<u8> {
    with_room(target, || 0).0
}

/// The records one after another. Where an argument has none, [`NO_RECORD`] stands for them all.
pub(crate) fn args_bytes<R: Record>(args: &[R]) -> Vec<u8> {
    let mut out = Vec::new();
    match args.iter().try_for_each(|arg| arg.write(&mut out, DEPTH)) {
        Ok(()) => out,
        Err(_) => NO_RECORD.to_vec(),
    }
}

pub(crate) fn build(stage: u8, target: &[u8], args: &[u8], room: usize) -> Result<Value, Refusal> {
    made(room, |out| call_ctor_bytes(stage, target, args, out))
}

/// What a call makes that is lent so much room, up to [`LONGEST`].
fn made(room: usize, call: impl FnOnce(&mut [u8]) -> Result<usize, Refusal>) -> Result<Value, Refusal> {
    let mut out = vec![0; room.min(LONGEST)];
    let length = call(&mut out)?;
    Ok(value_of(&out[..length]))
}

/// The value of an accepted call.
pub(crate) fn value_of(record: &[u8]) -> Value {
    Value::decode(record).expect(WHOLE)
}
