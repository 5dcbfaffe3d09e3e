use std::collections::hash_map::{Entry, HashMap};

use crate::{
    call_batch_bytes,
    owned::{args_bytes, build, value_of, with_room},
    Job, Part, Refusal, Stage, Target, Value, LONGEST,
};

/// The constants of a route, folded in one call. A target or a list of arguments that several jobs have is kept once.
#[derive(Clone, Debug, Default)]
pub struct Route {
    bytes: Vec<u8>,
    /// where the records are in `bytes`
    parts: HashMap<Vec<u8>, Part>,
    jobs: Vec<Job>,
    /// how long each job's record is where it is accepted
    rooms: Vec<usize>,
}

impl Route {
    /// A route without jobs.
    pub fn new() -> Route {
        Route::default()
    }

    /// Adds a job, to be answered as [`call_ctor`](crate::call_ctor) answers the same, and gives its number: how many
    /// were there before it.
    pub fn push(&mut self, stage: Stage, target: &Target, args: &[Value]) -> usize {
        let args = args_bytes(args);
        let (target, room) = with_room(target, || target.result_length(args.len()));
        let job = Job::new(stage.number(), self.kept(target), self.kept(args));
        self.jobs.push(job);
        self.rooms.push(room);
        self.jobs.len() - 1
    }

    /// Folds every job, in one call of the library: the answers by the jobs' numbers, each the one that
    /// [`call_ctor`](crate::call_ctor) gives. A refused job leaves the others as they are. Refused as a whole (23)
    /// where there are more than [`MOST_JOBS`](crate::MOST_JOBS).
    ///
    /// The call is lent as many bytes as the records take, so that it is the only one, up to [`LONGEST`] for all of
    /// them together. Where they take more, each job that finds too little left is folded again by itself, with up to
    /// [`LONGEST`] bytes of its own.
    pub fn fold(&self) -> Result<Vec<Result<Value, Refusal>>, Refusal> {
        let mut jobs = self.jobs.clone();
        let mut out = vec![0; self.room().min(LONGEST)];
        call_batch_bytes(&self.bytes, &mut jobs, &mut out)?;
        Ok(jobs.iter().zip(&self.rooms).map(|(job, room)| self.folded(job, *room, &out)).collect())
    }

    /// How many jobs there are.
    pub fn len(&self) -> usize {
        self.jobs.len()
    }

    /// Whether there are none.
    pub fn is_empty(&self) -> bool {
        self.jobs.is_empty()
    }

    /// The slice with the records of all jobs. Lent to [`call_batch_bytes`] with a copy of [`jobs`](Route::jobs), it
    /// gives the records without trees.
    pub fn bytes(&self) -> &[u8] {
        &self.bytes
    }

    /// The jobs, which name parts of [`bytes`](Route::bytes), without answers.
    pub fn jobs(&self) -> &[Job] {
        &self.jobs
    }

    /// How many bytes the records of all jobs take where none is refused, as far as a `usize` goes; a result buffer of
    /// that length is always enough.
    pub fn room(&self) -> usize {
        self.rooms.iter().fold(0, |sum, room| sum.saturating_add(*room))
    }

    /// The part that holds the record, which is added only where none does yet.
    fn kept(&mut self, record: Vec<u8>) -> Part {
        match self.parts.entry(record) {
            Entry::Occupied(part) => *part.get(),
            Entry::Vacant(place) => {
                let part = Part { start: self.bytes.len(), len: place.key().len() };
                self.bytes.extend(place.key());
                *place.insert(part)
            }
        }
    }

    fn folded(&self, job: &Job, room: usize, out: &[u8]) -> Result<Value, Refusal> {
        let record = |part: Part| &self.bytes[part.start..part.start + part.len];
        match job.result() {
            Ok(place) => Ok(value_of(&out[place])),
            Err(Refusal::NoRoom) => build(job.stage, record(job.target), record(job.args), room),
            Err(refusal) => Err(refusal),
        }
    }
}
