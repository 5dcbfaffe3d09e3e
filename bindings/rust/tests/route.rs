//! Whole routes: over trees by `Route`, over bytes by `call_batch_bytes`.
#![cfg(feature = "std")]

use vireodesk::*;

/// What a buffer holds before a call.
const FILL: u8 = 0xA5;

/// One call: its stage, its target, its arguments.
type Constant = (Stage, Target, Vec<Value>);

/// A tree that has no record, being too deep.
fn deep() -> Value {
    (0..16).fold(Value::from(1i64), |inner, _| Value::array([inner]))
}

/// The nth constant of a route: some of each shape and stage, between a fifth and a fourth refused.
fn constant(n: usize) -> Constant {
    let x = n as i64;
    let pair = Type::structure(7, [Type::F32, Type::vector(2, Kind::F32)]);
    let (target, args) = match n % 12 {
        0 => (Type::F32.into(), vec![(x as f64 + 0.1).into()]),
        1 => (Type::vector(3, Kind::F32).into(), vec![x.into(), 0.5.into(), (-x).into()]),
        2 => (Target::Array, vec![x.into(), 2.5.into()]),
        3 => (Type::I32.into(), vec![(1i64 << 40).into()]),
        4 => (Type::vector(4, Kind::F32).into(), vec![]),
        5 => (Type::matrix(2, 2, Kind::F16).into(), [1, 2, 3, x].map(Value::from).to_vec()),
        6 => (Target::Runtime(Type::U32), vec![x.into(); 5]),
        7 => (Type::F32.into(), vec![1e300.into()]),
        8 => (pair.into(), vec![x.into(), Value::vector([x, -x])]),
        9 => (Type::array(3, Type::I32).into(), vec![1i64.into(), x.into()]),
        10 => (Target::Vector(2), vec![x.into(), 2i64.into()]),
        _ => (Type::BOOL.into(), vec![(x as f32).into()]),
    };
    (Stage::ALL[n / 12 % 3], target, args)
}

fn constants(count: usize) -> Vec<Constant> {
    (0..count).map(constant).collect()
}

fn alone((stage, target, args): &Constant) -> Result<Value, Refusal> {
    call_ctor(*stage, target, args)
}

fn routed(constants: &[Constant]) -> Route {
    let mut route = Route::new();
    for (number, (stage, target, args)) in constants.iter().enumerate() {
        assert_eq!(route.push(*stage, target, args), number);
    }
    assert_eq!((route.len(), route.is_empty()), (constants.len(), constants.is_empty()));
    route
}

/// Folds the route and compares each answer with that of the constant alone; gives how many are accepted.
fn folds(constants: &[Constant]) -> usize {
    let folded = routed(constants).fold().expect("at most 256 jobs");
    assert_eq!(folded, constants.iter().map(alone).collect::<Vec<_>>());
    folded.iter().flatten().count()
}

fn bytes_of(part: Part, route: &Route) -> &[u8] {
    &route.bytes()[part.start..part.start + part.len]
}

/// The jobs, each by `call_ctor_bytes` with what is left of a buffer: the records' places and the whole buffer.
fn one_by_one(route: &Route, room: usize) -> (Vec<Result<std::ops::Range<usize>, Refusal>>, Vec<u8>) {
    let (mut at, mut out) = (0, vec![FILL; room]);
    let mut answer = |job: &Job| {
        let (target, args) = (bytes_of(job.target, route), bytes_of(job.args, route));
        let length = call_ctor_bytes(job.stage, target, args, &mut out[at..])?;
        at += length;
        Ok(at - length..at)
    };
    let answers = route.jobs().iter().map(&mut answer).collect();
    (answers, out)
}

/// The jobs in one call, which has to do as the calls one by one; gives the answered jobs and how many bytes were
/// written.
fn in_one(route: &Route, room: usize) -> (Vec<Job>, usize) {
    let (mut jobs, mut out) = (route.jobs().to_vec(), vec![FILL; room]);
    let written = call_batch_bytes(route.bytes(), &mut jobs, &mut out).expect("a route's parts are in its slice");
    let (answers, due) = one_by_one(route, room);
    assert_eq!(jobs.iter().map(Job::result).collect::<Vec<_>>(), answers, "room for {room}");
    assert_eq!(out, due, "room for {room}");
    let mut reached = 0;
    for (job, given) in jobs.iter().zip(route.jobs()) {
        assert_eq!((job.target, job.args, job.stage, job.at()), (given.target, given.args, given.stage, reached));
        reached = job.result().map_or(reached, |place| place.end);
    }
    assert_eq!(written, reached);
    (jobs, written)
}

#[test]
fn routes_of_some_lengths() {
    assert_eq!([0, 1, 2, 200, 256].map(|count| folds(&constants(count))), [0, 1, 2, 155, 199]);
    assert_eq!(routed(&constants(257)).fold(), Err(Refusal::TooManyJobs));
}

#[test]
fn refused_jobs_anywhere() {
    let (good, bad) = (constant(0), constant(9));
    for pattern in ["n", "nn", "ny", "yn", "nnyy", "yynn", "ynnny", "nyn", "ynyn"] {
        let constants: Vec<_> = pattern.chars().map(|c| if c == 'y' { good.clone() } else { bad.clone() }).collect();
        assert_eq!(folds(&constants), pattern.matches('y').count(), "{pattern}");
        in_one(&routed(&constants), 1000);
    }
    assert_eq!(routed(&[good, bad]).fold().unwrap()[1], Err(Refusal::Count { wanted: 3, given: 2 }));
}

#[test]
fn a_tree_without_a_record_is_refused_alone() {
    let too_deep = (0..16).fold(Type::F32, |element, _| Type::array(1, element));
    let constants = [
        (Stage::Const, too_deep.clone().into(), vec![1i64.into()]),
        (Stage::Const, Type::F32.into(), vec![deep()]),
        (Stage::Const, too_deep.into(), vec![deep()]),
        (Stage::Const, Type::F32.into(), vec![1i64.into()]),
    ];
    assert_eq!(folds(&constants), 1);
    let (bad_target, bad_argument) = (Err(Refusal::BadTarget), Err(Refusal::BadArgument));
    let route = routed(&constants);
    assert_eq!(route.fold().unwrap(), [bad_target.clone(), bad_argument, bad_target, Ok(1f32.into())]);
    // Only a target with a record takes room.
    assert_eq!(route.room(), 2 * 11);
}

#[test]
fn equal_records_are_kept_once() {
    let mut route = Route::new();
    let (f32, vec2) = (Target::from(Type::F32), Target::from(Type::vector(2, Kind::F32)));
    let one = &[Value::from(1i64)][..];
    for (target, args) in [(&f32, one), (&vec2, one), (&f32, &[]), (&f32, one), (&vec2, &[])] {
        route.push(Stage::Const, target, args);
    }
    assert_eq!(route.bytes(), b"Ts\x05Vs\x01\x01\0\0\0\0\0\0\0Tv\x02Ts\x05");
    let part = |start, len| Part { start, len };
    let (one, none) = (part(3, 11), part(20, 0));
    let parts: Vec<_> = route.jobs().iter().map(|job| (job.target, job.args)).collect();
    let (f32, vec2) = (part(0, 3), part(14, 6));
    assert_eq!(parts, [(f32, one), (vec2, one), (f32, none), (f32, one), (vec2, none)]);
    assert_eq!(route.fold().unwrap().iter().flatten().count(), 5);

    // A stage is no part of a record, and a copy goes its own way.
    let mut copy = route.clone();
    copy.push(Stage::Exec, &Target::Array, &[1i64.into()]);
    assert_eq!((copy.bytes().len(), route.bytes().len(), copy.len(), route.len()), (22, 20, 6, 5));
}

#[test]
fn the_room_is_that_of_the_records() {
    let accepted: Vec<_> = constants(256).into_iter().filter(|constant| alone(constant).is_ok()).collect();
    let route = routed(&accepted);
    assert_eq!(in_one(&route, route.room()).1, route.room());
    assert!(routed(&constants(256)).room() > route.room());
}

#[test]
fn a_buffer_of_any_length() {
    let route = routed(&constants(30));
    let exact = in_one(&route, 10_000).1;
    for room in (0..=200).chain(exact - 100..=exact + 1) {
        in_one(&route, room);
    }
    let last = |room| in_one(&route, room).0[29].result();
    assert_eq!([last(exact), last(exact + 1)], [Ok(exact - 54..exact), Ok(exact - 54..exact)]);
    assert_eq!(last(exact - 1), Err(Refusal::NoRoom));
}

#[test]
fn a_short_record_follows_one_that_does_not_fit() {
    let route = routed(&[constant(4), constant(1), constant(0), constant(0)]);
    let (jobs, written) = in_one(&route, 47 + 11 + 10);
    let answers: Vec<_> = jobs.iter().map(Job::result).collect();
    assert_eq!(answers, [Ok(0..47), Err(Refusal::NoRoom), Ok(47..58), Err(Refusal::NoRoom)]);
    assert_eq!((written, jobs.iter().map(Job::at).collect()), (58, vec![0, 47, 47, 58]));
}

#[test]
fn a_route_of_more_than_the_longest_record() {
    // 65,535 rows of 12 zeros are 4 + 65535 * (4 + 12 * 11) bytes, over half of 16 MiB; rows of 23 are over all of it.
    let rows = |n| Type::array(65535, Type::array(n, Type::I32));
    let vast = (0..15).fold(Type::I32, |element, _| Type::array(65535, element));
    let zeros = |ty: Type| (Stage::Exec, ty.into(), vec![]);
    let constants = [zeros(rows(12)), constant(0), zeros(rows(23)), zeros(rows(12)), zeros(vast), constant(1)];
    let route = routed(&constants);
    assert_eq!(route.room(), usize::MAX);
    let folded = route.fold().unwrap();
    let numbers = folded.iter().map(|answer| answer.as_ref().map_or_else(Refusal::number, |_| 0));
    assert_eq!(numbers.collect::<Vec<_>>(), [0, 0, 22, 0, 22, 0]);
    assert!(constants.iter().zip(&folded).all(|(constant, answer)| alone(constant) == *answer));
}

#[test]
fn a_stage_is_any_byte() {
    let route = routed(&[constant(0), constant(9)]);
    for stage in 0..=255 {
        let (mut jobs, mut out) = (route.jobs().to_vec(), [FILL; 64]);
        jobs.insert(0, Job::new(stage, jobs[0].target, jobs[0].args));
        let written = call_batch_bytes(route.bytes(), &mut jobs, &mut out);
        let numbers = jobs.iter().map(|job| job.result().map_or_else(|refusal| refusal.number(), |_| 0));
        let first = if stage > 2 { 3 } else { 0 };
        assert_eq!(numbers.collect::<Vec<_>>(), [first, 0, 8]);
        assert_eq!(written, Ok(if stage > 2 { 11 } else { 22 }));
    }
}

/// A call that has to be refused as a whole leaves the buffer and the jobs, answered by an earlier call, as they were.
fn refused(bytes: &[u8], jobs: &[Job]) -> Refusal {
    let (mut after, mut out) = (jobs.to_vec(), [FILL; 4096]);
    let refusal = call_batch_bytes(bytes, &mut after, &mut out).unwrap_err();
    assert_eq!((&after[..], out), (jobs, [FILL; 4096]));
    refusal
}

#[test]
fn a_part_outside_the_slice_refuses_the_call() {
    let route = routed(&constants(20));
    let (bytes, end, most) = (route.bytes(), route.bytes().len(), usize::MAX);
    let (answered, _) = in_one(&route, 4096);
    let part = |(start, len)| Part { start, len };
    let outside = [(end, 1), (end + 1, 0), (end - 1, 2), (0, end + 1), (1, end), (0, most), (1, most), (end, most)];
    let beyond = [(most, 0), (most, 1), (most, most), (most - 1, 2), (most - 1, 4), (most / 2 + 1, most / 2 + 1)];
    for part in outside.into_iter().chain(beyond).map(part) {
        for at in [0, 3, 19] {
            for of_target in [true, false] {
                let mut jobs = answered.clone();
                *(if of_target { &mut jobs[at].target } else { &mut jobs[at].args }) = part;
                assert_eq!(refused(bytes, &jobs), Refusal::PartOutside, "{part:?} in job {at}");
            }
        }
    }
    // The whole slice, and nothing at either end of it, are parts like others: a bad target, or no arguments.
    for (target, args, number) in [((0, end), (0, 0), 1), ((end, 0), (0, 0), 1), ((0, 3), (end, 0), 0)] {
        let mut jobs = [Job::new(0, part(target), part(args))];
        assert_eq!(call_batch_bytes(bytes, &mut jobs, &mut [0; 11]), Ok(if number == 0 { 11 } else { 0 }));
        assert_eq!(jobs[0].result().map_or_else(|refusal| refusal.number(), |_| 0), number);
    }
    assert_eq!(refused(b"", &[Job::new(9, part((1, 0)), part((0, 0)))]), Refusal::PartOutside);
}

#[test]
fn too_many_jobs_refuse_the_call_first() {
    let route = routed(&constants(200));
    let (answered, _) = in_one(&route, 1 << 16);
    let mut jobs: Vec<_> = answered.iter().chain(&answered).copied().collect();
    assert_eq!(refused(route.bytes(), &jobs), Refusal::TooManyJobs);
    jobs[0].args.start = usize::MAX;
    for count in [257, 400] {
        assert_eq!(refused(route.bytes(), &jobs[..count]), Refusal::TooManyJobs);
    }
    assert_eq!(refused(route.bytes(), &jobs[..256]), Refusal::PartOutside);
    assert_eq!(MOST_JOBS, 256);
}

#[test]
fn nothing_to_do() {
    assert_eq!(Route::new().fold(), Ok(vec![]));
    for room in [0, 3] {
        let mut out = vec![FILL; room];
        assert_eq!(call_batch_bytes(b"", &mut [], &mut out), Ok(0));
        assert_eq!(call_batch_bytes(b"Ts", &mut [], &mut out), Ok(0));
        assert_eq!(out, vec![FILL; room]);
    }
    let unasked = Job::new(0, Part { start: 0, len: 3 }, Part { start: 3, len: 0 });
    assert_eq!((unasked.result(), unasked.at()), (Ok(0..0), 0));
}
