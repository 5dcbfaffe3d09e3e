//! Every building call of the fixed list again, 256 of them in one call: each is answered as it is alone.
use crate::lines::{lines, Line};
use vireodesk::*;

const FILL: u8 = 0xA5;

/// The calls with their records one after another in one slice, and a buffer that is filled before.
fn over_bytes(lines: &[Line], room: usize) {
    let (mut bytes, mut jobs) = (Vec::new(), Vec::new());
    for line in lines {
        let [target, args] = [&line.target, &line.args].map(|record| {
            bytes.extend(record);
            Part { start: bytes.len() - record.len(), len: record.len() }
        });
        jobs.push(Job::new(line.stage, target, args));
    }
    let (mut out, mut due, mut at) = (vec![FILL; room], vec![FILL; room], 0);
    let written = call_batch_bytes(&bytes, &mut jobs, &mut out);
    for (line, job) in lines.iter().zip(&jobs) {
        let alone = call_ctor_bytes(line.stage, &line.target, &line.args, &mut due[at..]).map(|length| at..at + length);
        assert_eq!((job.result(), job.at()), (alone.clone(), at), "line {}, room for {room}", line.number);
        at = alone.map_or(at, |place| place.end);
    }
    assert_eq!(written, Ok(at));
    assert!(out == due, "from line {} on, room for {room}: another buffer", lines[0].number);
}

fn over_trees(lines: &[Line]) {
    let mut route = Route::new();
    let mut alone = Vec::new();
    for line in lines {
        let target = Target::decode(&line.target).expect("the list's targets are well formed");
        let args = Value::decode_list(&line.args).expect("the list's values are well formed");
        let stage = Stage::try_from(line.stage).expect("the list's stages are stages");
        let before = route.room();
        route.push(stage, &target, &args);
        alone.push(call_ctor(stage, &target, &args));
        if let Some(Ok(value)) = alone.last() {
            let length = value.encode().expect("it has a record").len();
            assert_eq!(route.room() - before, length, "line {}: the room for its record", line.number);
        }
    }
    assert_eq!(route.fold(), Ok(alone));
}

#[test]
fn the_building_calls_in_batches() {
    let building: Vec<Line> = lines().into_iter().filter(|line| line.entry == "call_ctor").collect();
    for lines in building.chunks(MOST_JOBS) {
        over_trees(lines);
        for room in [1 << 16, 4096, 100, 0] {
            over_bytes(lines, room);
        }
    }
}
