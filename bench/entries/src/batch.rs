//! A route in one call of `call_batch`, beside the same constants one by one and by the Rust.

use std::{hint::black_box, iter::once};

use reference::call::Decoded;
use vireodesk::{Job, Part, Refusal, call_batch_bytes};

use crate::{
    groups::Group,
    sides::{self, FILL, Pass, ROOM, library},
};

/// The passes in their order; those after the first are the sides of a group without a C loop.
pub const NAMES: [&str; 4] = ["batch", "one by one", "Rust, records", "Rust, call"];

/// What the first two mean.
pub const MEANING: &str = "- batch: all constants of the route by one call_batch; one by one: each by a call_ctor";

/// The calls of a group as the jobs of one. Each record has a place of its own in the slice: none is shared, as none is
/// one by one.
struct Batch {
    bytes: Vec<u8>,
    jobs: Vec<Job>,
}

impl Batch {
    fn new(group: &Group) -> Batch {
        let mut batch = Batch { bytes: Vec::new(), jobs: Vec::new() };
        for call in &group.calls {
            let (target, args) = (batch.part(&call.target), batch.part(&call.args));
            batch.jobs.push(Job::new(call.stage, target, args));
        }
        batch
    }

    fn part(&mut self, record: &[u8]) -> Part {
        let part = Part { start: self.bytes.len(), len: record.len() };
        self.bytes.extend(record);
        part
    }

    fn call(&mut self, out: &mut [u8]) -> Result<usize, Refusal> {
        call_batch_bytes(&self.bytes, &mut self.jobs, out)
    }
}

/// A pass by each side, in the order of `NAMES`.
pub fn passes<'a>(group: &'a Group, decoded_calls: &'a [Decoded]) -> Vec<Pass<'a>> {
    let (mut batch, mut out) = (Batch::new(group), vec![0; ROOM]);
    let one_call: Pass = Box::new(move || {
        black_box(black_box(&mut batch).call(&mut out).unwrap_or(0));
    });
    once(one_call).chain(sides::passes(group, decoded_calls)).collect()
}

/// Where the sides differ on a call, or one call does not do what the calls do one by one.
pub fn difference(group: &Group) -> Option<String> {
    sides::difference(group)
        .or_else(|| differs(group).then(|| "one call does not do as its calls do alone".to_string()))
}

/// Records, places and the whole buffer are compared.
fn differs(group: &Group) -> bool {
    let mut batch = Batch::new(group);
    let (mut out, mut due, mut at) = (vec![FILL; ROOM], vec![FILL; ROOM], 0);
    let written = batch.call(&mut out);
    let mut alone = |call| {
        let start = at;
        at += library(call, &mut due[at..])?;
        Ok(start..at)
    };
    let places = group.calls.iter().zip(&batch.jobs).all(|(call, job)| alone(call) == job.result());
    !places || written != Ok(at) || out != due
}
