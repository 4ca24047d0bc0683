//! What is measured: each call under the fixed configuration and under a full one, where what it looks for stands in the last row of its table.

use super::call::{Act, After, Call, Frame, Kind, T};
use crate::state::config;
use crate::state::held::{Held, Pending};

const PHYSICAL: u32 = 16;
const SRC: u32 = 3712;

/// The value of every identifier.
const VALUE: [u8; 17] = *b"COLDLINCH-0000042";

/// A seed that was given, or that awaits its key.
const SEED: [u8; 31] = [0xC3; 31];

/// The fixed configuration; the last request came a second before.
fn fixed() -> Held {
    let mut held = Held::fresh(config::fixed());
    held.state.session.last_rx = T - 1000;
    held
}

/// Eight sessions; 24 services, this one last; 128 identifiers, F27F last and at level 7; eight levels, 7 last, with a seed of 31 bytes.
fn full(sid: u8) -> Held {
    let mut held = fixed();
    held.config = config::full();
    for (i, row) in held.config[38..278].chunks_exact_mut(10).enumerate() {
        row[0] = if i == 23 {
            u32::from(sid)
        } else {
            0x80 + i as u32
        };
    }
    for (i, row) in held.config[278..2966].chunks_exact_mut(21).enumerate() {
        row[0] = 0xF200 + i as u32;
    }
    held.config[278 + 21 * 127 + 1] = 7;
    held.config[2966 + 5 * 7 + 3] = 31;
    held
}

impl Held {
    fn at_level(mut self, level: u8) -> Self {
        self.state.session.level = level;
        self
    }

    fn pending(mut self, deadline: u64) -> Self {
        self.state.pending = Pending {
            deadline,
            dst: SRC,
            sid: 0x31,
            on: true,
        };
        self
    }

    /// In another session, with no request for so long.
    fn silent(mut self, session: u8, ms: u64) -> Self {
        self.state.session.session_type = session;
        self.state.session.last_rx = T - ms;
        self
    }

    /// So many clients get an identifier every 100 ms, next at this time.
    fn subscribed(mut self, clients: u8, id: [u8; 2], next: u64) -> Self {
        self.state.subscriptions = clients;
        let id = u64::from(u16::from_be_bytes(id));
        let rows = self.subscriptions.chunks_exact_mut(4).zip(u64::from(SRC)..);
        for (row, client) in rows.take(usize::from(clients)) {
            row.copy_from_slice(&[id, client, 100, next]);
        }
        self
    }

    /// A seed of so many bytes awaits its key; one key was refused before.
    fn seeded(mut self, length: usize, level: u8) -> Self {
        let level = u64::from(level);
        self.security[..4].copy_from_slice(&[length as u64, level, 1, 0]);
        self.security[4..][..length].copy_from_slice(&SEED.map(u64::from)[..length]);
        self.security[36..38].copy_from_slice(&[level, 1]);
        self
    }

    /// So many frames of six bytes wait.
    fn waiting(mut self, frames: u8) -> Self {
        self.state.frames = frames;
        for head in self.heads.chunks_exact_mut(2) {
            head.copy_from_slice(&[SRC, 6]);
        }
        self.room.fill(0xA5);
        self
    }
}

fn request(name: &str, held: Held, frame: &[u8], replies: &[&[u8]]) -> Call {
    let mut after = After::of(&held);
    after.waiting = replies.iter().map(|reply| (SRC, reply.to_vec())).collect();
    let ids = held.config[278..]
        .chunks_exact(21)
        .take(held.config[4] as usize);
    Call {
        name: name.into(),
        kind: Kind::Request,
        values: ids.flat_map(|row| [row[0], 0, 0, 17]).collect(),
        pool: VALUE.to_vec(),
        src: SRC,
        dst: PHYSICAL,
        frame: frame.to_vec(),
        err: 0,
        given: vec![],
        after,
        held,
    }
}

fn question(name: &str, held: Held, frame: &[u8], number: u8, parts: &[(usize, usize)]) -> Call {
    let mut call = request(name, held, frame, &[]);
    call.kind = Kind::Question;
    let parts = parts.to_vec();
    call.after.act = Act { number, parts };
    call
}

fn tick(name: &str, held: Held, sent: &[&[u8]]) -> Call {
    let mut call = request(name, held, &[], sent);
    call.kind = Kind::Tick;
    call
}

/// Every client gets the identifier's value, and is due again an interval later.
fn sent(name: &str, clients: u8, held: Held, id: [u8; 2]) -> Call {
    let mut call = tick(name, held.subscribed(clients, id, T - 30), &[]);
    let frame = [&id[1..], &VALUE].concat();
    for row in &mut call.after.subscriptions {
        row[3] = T + 100;
        call.after.waiting.push((row[1] as u32, frame.clone()));
    }
    call
}

/// What `complete` (no code) or `fail` leaves of a pending request.
fn ended(name: &str, held: Held, code: Option<u8>, payload: &[u8]) -> Call {
    let reply = match code {
        Some(code) => vec![0x7F, 0x31, code],
        None => [&[0x71], payload].concat(),
    };
    let mut call = request(name, held.pending(T + 1000), &[], &[&reply]).given(payload);
    call.kind = code.map_or(Kind::Complete, |_| Kind::Fail);
    call.err = code.unwrap_or(0);
    call.after.pending = None;
    call
}

fn drain(name: &str, held: Held) -> Call {
    let frames: Vec<Frame> = held.queue().frames();
    let mut call = request(name, held, &[], &[]);
    call.kind = Kind::Drain;
    call.after.drained = frames;
    call
}

impl Call {
    fn to(mut self, dst: u32) -> Self {
        self.dst = dst;
        self
    }

    fn given(mut self, bytes: &[u8]) -> Self {
        self.given = bytes.to_vec();
        self
    }

    fn then(mut self, change: impl FnOnce(&mut After)) -> Self {
        change(&mut self.after);
        self
    }
}

/// What the calls name in one of the two configurations.
struct Under {
    named: &'static str,
    held: fn(u8) -> Held,
    session: u8,
    /// Read by 22.
    id: [u8; 2],
    /// Asked for by 2A.
    periodic: u8,
    level: u8,
    seed: &'static [u8],
    key: &'static [u8],
}

const FIXED: Under = Under {
    named: "",
    held: |_| fixed(),
    session: 3,
    id: [0xF1, 0x90],
    periodic: 0x01,
    level: 3,
    seed: &[0xC3; 4],
    key: &[0x5A; 4],
};

const FULL: Under = Under {
    named: ", full",
    held: full,
    session: 8,
    id: [0xF2, 0x7F],
    periodic: 0x7F,
    level: 7,
    seed: &SEED,
    key: &[0x5A; 32],
};

#[rustfmt::skip]
fn calls(u: &Under) -> Vec<Call> {
    let (held, s, l, [a, b]) = (u.held, u.session, u.level, u.id);
    let seeded = held(0x27).seeded(u.seed.len(), l);
    let row = [0xF200 + u64::from(u.periodic), u64::from(SRC), 50, T + 50];
    let mut calls = vec![
        request("3E 00", held(0x3E), &[0x3E, 0], &[&[0x7E, 0]]),
        request("10, opened", held(0x10), &[0x10, s], &[&[0x50, s, 0, 50, 1, 0xF4]]).then(|after| after.session = s),
        request("22, 17 bytes", held(0x22).at_level(l), &[0x22, a, b], &[&[&[0x62, a, b], &VALUE[..]].concat()]),
        request("14, not known", held(0x22), &[0x14, 0xFF, 0xFF, 0xFF], &[&[0x7F, 0x14, 0x11]]),
        request("3E 00, busy", held(0x3E).pending(T + 1000), &[0x3E, 0], &[&[0x7F, 0x3E, 0x21]]).then(|after| after.waiting[0].0 = PHYSICAL),
        request("3E 00, to another", held(0x3E), &[0x3E, 0], &[]).to(99),
        request("27, seed", held(0x27), &[0x27, l], &[&[&[0x67, l], u.seed].concat()]).given(u.seed).then(|after| after.seed = u.seed.len()),
        request("27, key", seeded.clone(), &[&[0x27, l + 1], u.key].concat(), &[&[0x67, l + 1]]).then(|after| (after.level, after.seed) = (l, 0)),
        request("2A 03, one", held(0x2A).at_level(l), &[0x2A, 3, u.periodic], &[&[0x6A, 3]]).then(|after| after.subscriptions = vec![row]),
        question("question of 31", held(0x31), &[0x31, 1, 2, 3, 4, 5], 0x31, &[(1, 1), (2, 2), (4, 2)]),
        question("question of 22", held(0x22).at_level(l), &[0x22, a, b], 0, &[]),
        tick("tick, no subscription", held(0x3E), &[]),
        tick("tick, none of 16 due", held(0x3E).subscribed(16, u.id, T + 1), &[]),
        sent("tick, 1 due", 1, held(0x3E), u.id),
        sent("tick, 16 due", 16, held(0x3E), u.id),
        tick("tick, S3 ends", seeded.at_level(l).silent(s, 5001), &[]).then(|after| (after.session, after.level, after.seed) = (1, 0, 0)),
        tick("tick, at the deadline", held(0x3E).pending(T), &[&[0x7F, 0x31, 0x78]]).then(|after| after.pending = Some((SRC, 0x31, T + 5000))),
        ended("complete, 4 bytes", held(0x31), None, &[0x5A; 4]),
        ended("complete, 255 bytes", held(0x31), None, &[0x5A; 255]),
        ended("fail", held(0x31), Some(0x22), &[]),
        drain("drain of 1", held(0x3E).waiting(1)),
        drain("drain of 16", held(0x3E).waiting(16)),
    ];
    for call in &mut calls {
        call.name.push_str(u.named);
    }
    calls
}

/// Each can be made again: what it changes is put back first.
pub fn all() -> Vec<Call> {
    [calls(&FIXED), calls(&FULL)].concat()
}
