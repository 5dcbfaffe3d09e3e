//! The library's side: one call through the functions on bytes of bindings/rust.

use reference::{
    call::{Call, Entry},
    refusals::Refusal,
};
use vireodesk::{call_ctor_bytes, conversion_rank_bytes, convert_to_bytes, type_ctor_bytes};

/// What comes back from an entry; a record lies at the front of the lent buffer.
#[derive(Clone, Copy, Debug)]
pub enum Reply {
    Record(usize),
    Rank(u32),
    Refused(Refusal),
}

pub fn reply(call: &Call, out: &mut [u8]) -> Reply {
    let (target, args) = (&call.target, &call.args);
    let record = match call.entry {
        Entry::CallCtor => call_ctor_bytes(call.stage, target, args, out),
        Entry::TypeCtor => type_ctor_bytes(target, args, out),
        Entry::ConvertTo => convert_to_bytes(target, args, out),
        Entry::ConversionRank => {
            return conversion_rank_bytes(target, args).map_or_else(refused, |rank| Reply::Rank(rank.into()));
        }
    };
    record.map_or_else(refused, Reply::Record)
}

fn refused(refusal: vireodesk::Refusal) -> Reply {
    let counts = match refusal {
        vireodesk::Refusal::Count { wanted, given } => Some((wanted as usize, given as usize)),
        _ => None,
    };
    Reply::Refused(Refusal { number: Some(refusal.number()), counts })
}
