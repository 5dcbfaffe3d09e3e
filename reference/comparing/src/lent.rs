//! The lent buffer: what a call writes to it, and what it leaves alone.

use reference::call::Answer;

use crate::{judge::refused, library::Reply};

/// The length that is lent; more only where the record that is due is longer.
pub const ROOM: usize = 65536;
const GUARD: usize = 64;
const FILL: u8 = 0xA5;

/// A buffer between two guards. Every byte is FILL before a call.
pub struct Lent {
    space: Vec<u8>,
}

impl Lent {
    pub fn new() -> Lent {
        Lent { space: vec![FILL; ROOM + 2 * GUARD] }
    }

    /// Makes the call. Its answer is the one that is due; a record comes again with a buffer of exactly its length, and
    /// one a byte short gets 22; nothing but the record's own bytes is written. Else: what the library answers, in words.
    pub fn check(&mut self, due: Option<&Answer>, entry: impl Fn(&mut [u8]) -> Reply) -> Result<(), String> {
        let answered = self.answers(due, entry);
        let untouched = self.space.iter().fold(0, |seen, byte| seen | (byte ^ FILL)) == 0;
        if answered.is_err() || !untouched {
            self.space.fill(FILL);
        }
        answered?;
        if untouched { Ok(()) } else { Err("writes bytes that are not the record's".to_string()) }
    }

    fn answers(&mut self, due: Option<&Answer>, entry: impl Fn(&mut [u8]) -> Reply) -> Result<(), String> {
        let needed = if let Some(Answer::Ok(record)) = due { record.len() } else { 0 };
        let answer = self.answer(ROOM.max(needed), &entry)?;
        if due != Some(&answer) {
            return Err(answer.to_string());
        }
        let Answer::Ok(record) = &answer else {
            return Ok(());
        };
        for (room, again) in [(record.len(), &answer), (record.len() - 1, &refused(22))] {
            let other = self.answer(room, &entry)?;
            if other != *again {
                return Err(format!("with a buffer of {room} bytes {other}"));
            }
        }
        Ok(())
    }

    /// The answer with a buffer of that length. A record is taken out: its place is FILL again.
    fn answer(&mut self, room: usize, entry: impl Fn(&mut [u8]) -> Reply) -> Result<Answer, String> {
        if self.space.len() < room + 2 * GUARD {
            self.space.resize(room + 2 * GUARD, FILL);
        }
        let lent = &mut self.space[GUARD..GUARD + room];
        match entry(lent) {
            Reply::Rank(rank) => Ok(Answer::Rank(rank)),
            Reply::Refused(refusal) => Ok(Answer::No(refusal)),
            Reply::Record(length) if length > room => Err(format!("a record of {length} bytes in a buffer of {room}")),
            Reply::Record(length) => {
                let record = lent[..length].to_vec();
                lent[..length].fill(FILL);
                Ok(Answer::Ok(record))
            }
        }
    }
}
