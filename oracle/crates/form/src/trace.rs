//! The trace form: binary records in, two kinds of line out, one fixed configuration.

use std::fmt::Write;

use crate::print::hex;
use crate::types::*;

/// No more of a trace than this is read.
pub const MAX_TRACE: usize = 65_536;

/// Room for sixteen records of 264 bytes.
const DRAIN: usize = 16 * 264;

pub const FOURTEEN: [u8; 14] = [
    0x10, 0x11, 0x22, 0x27, 0x28, 0x2A, 0x2E, 0x2F, 0x31, 0x34, 0x36, 0x37, 0x38, 0x3E,
];

#[derive(Debug, Clone, PartialEq, Eq)]
pub enum Record {
    Request(Request),
    Tick(u64),
    Outcome(Outcome),
    Value { id: u16, error: u8, bytes: Vec<u8> },
}

pub fn fixed_config() -> Config {
    let both = || vec![1, 3];
    let session = |kind| SessionRow {
        kind,
        p2: 50,
        p2_star: 5000,
        s3: 5000,
    };
    let service = |sid: &u8| ServiceRow {
        sid: *sid,
        level: 0,
        sessions: both(),
    };
    let identifier = |id, level| IdentifierRow {
        id,
        level,
        periodic: true,
        minimum: 0,
        readable: both(),
        writable: both(),
    };
    Config {
        physical: 16,
        functional: 2015,
        sessions: vec![session(1), session(3)],
        services: FOURTEEN.iter().map(service).collect(),
        identifiers: vec![identifier(0xF190, 3), identifier(0xF201, 0)],
        levels: vec![LevelRow {
            level: 3,
            attempts: 3,
            lockout: 10_000,
            seed: 4,
            key: 4,
        }],
    }
}

/// The next record and what follows it; `None` for a cut or unknown one or a length that does not suit.
pub fn next(input: &[u8]) -> Option<(Record, &[u8])> {
    let length = usize::from(u16::from_le_bytes(input.get(0..2)?.try_into().ok()?));
    let kind = u16::from_le_bytes(input.get(2..4)?.try_into().ok()?);
    let body = input.get(4..4 + length)?;
    let u64_at = |at: usize| Some(u64::from_le_bytes(body.get(at..at + 8)?.try_into().ok()?));
    let u32_at = |at: usize| Some(u32::from_le_bytes(body.get(at..at + 4)?.try_into().ok()?));
    let record = match kind {
        1 => Record::Request(Request {
            time: u64_at(0)?,
            src: u32_at(8)?,
            dst: u32_at(12)?,
            frame: body[16..].to_vec(),
        }),
        2 if length == 8 => Record::Tick(u64_at(0)?),
        3 if length >= 1 => Record::Outcome(Outcome {
            error: body[0],
            bytes: body[1..].to_vec(),
        }),
        4 if length >= 3 => Record::Value {
            id: u16::from_le_bytes([body[0], body[1]]),
            error: body[2],
            bytes: body[3..].to_vec(),
        },
        _ => return None,
    };
    Some((record, &input[4 + length..]))
}

/// The bytes of a record.
pub fn bytes(record: &Record) -> Vec<u8> {
    let (kind, body): (u16, Vec<u8>) = match record {
        Record::Request(r) => {
            let (time, src, dst) = (
                r.time.to_le_bytes(),
                r.src.to_le_bytes(),
                r.dst.to_le_bytes(),
            );
            (1, [&time[..], &src, &dst, &r.frame].concat())
        }
        Record::Tick(time) => (2, time.to_le_bytes().to_vec()),
        Record::Outcome(o) => (3, [&[o.error][..], &o.bytes].concat()),
        Record::Value { id, error, bytes } => {
            (4, [&id.to_le_bytes()[..], &[*error], bytes].concat())
        }
    };
    let head = [(body.len() as u16).to_le_bytes(), kind.to_le_bytes()].concat();
    [head, body].concat()
}

/// What a trace has built up so far.
pub struct Run {
    pub server: Server,
    outcome: Option<Outcome>,
    values: Vec<(u16, u8, Vec<u8>)>,
}

impl Run {
    pub fn new(engine: &mut dyn Engine) -> Self {
        let (result, server) = engine.fresh(&fixed_config());
        assert_eq!(result, 0, "the fixed configuration keeps the numbers");
        let empty = |id| (id, 0, Vec::new());
        Self {
            server,
            outcome: None,
            values: vec![empty(0xF190), empty(0xF201)],
        }
    }

    fn table(&self) -> Values {
        let mut table = Values::default();
        for (id, error, bytes) in &self.values {
            let (start, length) = (table.pool.len() as u64, bytes.len() as u64);
            table.rows.push(ValueRow {
                id: *id,
                error: *error,
                start,
                length,
            });
            table.pool.extend_from_slice(bytes);
        }
        table
    }

    pub fn step(&mut self, engine: &mut dyn Engine, record: &Record, out: &mut String) {
        let table = self.table();
        let (kind, answer) = match record {
            Record::Outcome(o) => {
                self.outcome = Some(o.clone());
                return;
            }
            Record::Value { id, error, bytes } => {
                if let Some(row) = self.values.iter_mut().find(|row| row.0 == *id) {
                    *row = (*id, *error, bytes.clone());
                }
                return;
            }
            Record::Request(r) => {
                let missing = Outcome {
                    error: 0x22,
                    bytes: Vec::new(),
                };
                let outcome = self.outcome.take().unwrap_or(missing);
                (1, engine.request(&mut self.server, &table, r, &outcome))
            }
            Record::Tick(time) => (2, engine.tick(&mut self.server, &table, *time)),
        };
        let s = &self.server.state;
        let _ = writeln!(out, "{kind} {} {} {}", answer.result, s.session, s.level);
        self.drain(engine, out);
    }

    fn drain(&mut self, engine: &mut dyn Engine, out: &mut String) {
        let mut buffer = vec![0; DRAIN];
        let (_, count) = engine.drain(&mut self.server, &mut buffer);
        let mut rest = &buffer[..];
        for _ in 0..count {
            let length = usize::from(u16::from_le_bytes([rest[0], rest[1]]));
            let dst = u32::from_le_bytes(rest[4..8].try_into().expect("four bytes"));
            let _ = writeln!(out, "> {dst} {}", hex(&rest[8..4 + length]));
            rest = &rest[4 + length..];
        }
    }
}

/// Runs the first 65,536 bytes of a trace.
pub fn run(engine: &mut dyn Engine, input: &[u8], out: &mut String) {
    let mut rest = &input[..input.len().min(MAX_TRACE)];
    let mut run = Run::new(engine);
    while !rest.is_empty() {
        let Some((record, after)) = next(rest) else {
            out.push_str("bad\n");
            return;
        };
        run.step(engine, &record, out);
        rest = after;
    }
}
