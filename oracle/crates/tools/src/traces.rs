//! Traces from a seed, over the fixed configuration.

use form::trace::{self, Record, Run};
use form::{Outcome, Request};
use rules::Rules;

use crate::rng::Rng;
use crate::{frames, states};

/// Trace number `number` of a seed.
pub fn trace(seed: u64, number: u64) -> Vec<u8> {
    let mut rng = Rng::new(seed ^ number.wrapping_mul(0xA24B_AED4_963E_E407) ^ 0x5851);
    rng.next();
    let mut rules = Rules::default();
    let mut run = Run::new(&mut rules);
    let mut now = rng.pick(&[0, 100, states::LATEST - 6000]);
    let mut bytes = Vec::new();
    let count = if rng.chance(10) {
        60 + rng.below(150)
    } else {
        3 + rng.below(25)
    };
    for _ in 0..count {
        let record = record(&mut rng, &run, &mut now);
        run.step(&mut rules, &record, &mut String::new());
        bytes.extend(trace::bytes(&record));
    }
    if rng.chance(1) {
        overlong(&mut rng, &mut bytes);
    } else if rng.chance(40) {
        bytes.extend(bad(&mut rng));
    }
    bytes
}

fn record(rng: &mut Rng, run: &Run, now: &mut u64) -> Record {
    let s = &run.server;
    match rng.below(20) {
        0..9 => Record::Request(request(rng, run, now)),
        9..12 => Record::Tick(time(rng, run, now)),
        12..17 => {
            let kind = s.state.seed_level + 1;
            let like = rng.pick(&[[0x27, 3], [0x27, kind], [0x31, 1]]);
            Record::Outcome(outcome(rng, run, &like))
        }
        _ => {
            let length = rng.pick(&[0, 1, 4, 252, 253, 254, 255, 256, 257]);
            let faulty = rng.chance(10);
            let error = if faulty {
                rng.pick(&[0x78, 0x31, 0xFF])
            } else {
                0
            };
            let id = rng.pick(&[0xF190, 0xF201, 0xF201, 0x90F1]);
            let bytes = rng.bytes(length);
            Record::Value { id, error, bytes }
        }
    }
}

fn request(rng: &mut Rng, run: &Run, now: &mut u64) -> Request {
    let frame = frames::frame(rng, &run.server);
    let dst = rng.pick(&[16, 16, 16, 2015, 17]);
    // Enough clients to fill the table with the one identifier that can be subscribed to.
    let many = rng.chance(30);
    let src = if many {
        rng.below(24) as u32
    } else {
        states::client(rng)
    };
    let time = time(rng, run, now);
    Request {
        time,
        src,
        dst,
        frame,
    }
}

fn outcome(rng: &mut Rng, run: &Run, frame: &[u8]) -> Outcome {
    frames::outcome(rng, &run.server, frame)
}

fn time(rng: &mut Rng, run: &Run, now: &mut u64) -> u64 {
    let s = &run.server;
    let time = states::time(rng, &s.config, &s.state, *now);
    if time <= states::LATEST {
        *now = time;
    }
    time
}

/// A record that is cut, unknown or of a length that does not suit its kind.
fn bad(rng: &mut Rng) -> Vec<u8> {
    let record = |kind: u16, body: &[u8]| {
        [
            &(body.len() as u16).to_le_bytes()[..],
            &kind.to_le_bytes(),
            body,
        ]
        .concat()
    };
    let zeros = [0; 64];
    match rng.below(8) {
        0 => zeros[..1 + rng.below(3)].to_vec(),
        1 => {
            let whole = record(rng.pick(&[1, 2, 3, 4]), &zeros[..16]);
            whole[..4 + rng.below(16)].to_vec()
        }
        2 => record(
            rng.pick(&[0, 5, 6, 7, 256, 65_535]),
            &zeros[..rng.below(20)],
        ),
        3 => record(1, &zeros[..rng.pick(&[0, 8, 15])]),
        4 => record(2, &zeros[..rng.pick(&[0, 7, 9])]),
        5 => record(3, &[]),
        _ => record(4, &zeros[..rng.below(3)]),
    }
}

/// Past the 65,536 bytes that are read; the last record read may be cut or end there.
fn overlong(rng: &mut Rng, bytes: &mut Vec<u8>) {
    let body = |length: usize| {
        Record::Outcome(Outcome {
            error: 0,
            bytes: vec![7; length],
        })
    };
    let left = trace::MAX_TRACE - bytes.len();
    if left > 10 {
        bytes.extend(trace::bytes(&body(left - 5 - rng.below(2))));
    }
    let tick = Record::Tick(rng.below(10_000) as u64);
    bytes.extend(trace::bytes(&tick));
}
