//! States to hand in, value tables and times, each around the limits that the rules name.

use form::parse::Line;
use form::{Config, Entry, Pending, State, ValueRow};

use crate::rng::Rng;

pub const LATEST: u64 = 1 << 48;

/// The lines of a state that the published server's types can hold; now and then one that no rule accepts.
pub fn state(rng: &mut Rng, c: &Config, now: u64) -> Vec<Line> {
    let mut lines = vec![standing(rng, c, now)];
    if rng.chance(30) {
        let (dst, sid) = (client(rng), rng.pick(&[0x31, 0x22, 0x36, 0xFF]));
        lines.push(Line::Pending(Pending {
            dst,
            sid,
            deadline: around(rng, now),
        }));
    }
    if rng.chance(60) {
        let length = rng.pick(&[0, 1, 4, 4, 31, 32]);
        lines.push(Line::Seed(rng.pick(&[3, 3, 1, 5, 9, 0]), rng.bytes(length)));
    }
    if rng.chance(60) {
        lines.extend(counts_and_locks(rng, now));
    }
    if rng.chance(60) {
        lines.extend(subscriptions(rng, c, now).into_iter().map(Line::Periodic));
    }
    if rng.chance(60) {
        lines.extend(queue(rng));
    }
    if rng.chance(7) {
        damage(rng, &mut lines);
    }
    lines
}

/// Session, level, last_rx and address mode.
fn standing(rng: &mut Rng, c: &Config, now: u64) -> Line {
    let mut kinds: Vec<u8> = c.sessions.iter().map(|row| row.kind).collect();
    kinds.extend(c.services.first().and_then(|row| row.sessions.last()));
    let any = kinds.is_empty() || rng.chance(10);
    Line::State {
        session: if any { rng.byte() } else { rng.pick(&kinds) },
        level: rng.pick(&[0, 0, 1, 3, 3, 5, 255]),
        last_rx: around(rng, now),
        functional: rng.chance(40),
    }
}

pub fn client(rng: &mut Rng) -> u32 {
    rng.pick(&[3712, 3712, 3712, 3713, 16, 0, u32::MAX])
}

fn around(rng: &mut Rng, now: u64) -> u64 {
    let away = rng.pick(&[0, 1, 2, 50, 900, 4999, 5000, 5001, 6000, 20_000]);
    if rng.chance(50) {
        now.saturating_sub(away)
    } else {
        (now + away).min(LATEST + 5000)
    }
}

fn counts_and_locks(rng: &mut Rng, now: u64) -> Vec<Line> {
    let full = [11, 13, 15, 17, 19, 21, 23, 25];
    let few = [3, 1, 5];
    let mut lines = Vec::new();
    let levels = |rng: &mut Rng| match rng.below(5) {
        0 => full.to_vec(),
        1 => [&few[..1], &full[..7]].concat(),
        _ => few[..rng.below(4)].to_vec(),
    };
    for level in levels(rng) {
        lines.push(Line::Count(level, rng.pick(&[0, 1, 2, 2, 254, 255])));
    }
    for level in levels(rng) {
        lines.push(Line::Lock(level, around(rng, now)));
    }
    lines
}

fn subscriptions(rng: &mut Rng, c: &Config, now: u64) -> Vec<Entry> {
    let count = rng.pick(&[1, 2, 3, 14, 15, 16]);
    let ids: Vec<u16> = c
        .identifiers
        .iter()
        .map(|row| row.id)
        .filter(|id| id >> 8 == 0xF2)
        .collect();
    let twice = rng.chance(15);
    let mut all: Vec<Entry> = Vec::new();
    for _ in 0..count {
        let own = ids.is_empty() || rng.chance(40);
        let id = if own {
            0xF200 | u16::from(rng.byte())
        } else {
            rng.pick(&ids)
        };
        let id = if rng.chance(5) { rng.next() as u16 } else { id };
        let (client, next) = (client(rng), around(rng, now));
        let interval = rng.pick(&[0, 50, 50, 500, 2000, (1 << 32) - 1]);
        if twice || !all.iter().any(|e| e.id == id && e.client == client) {
            all.push(Entry {
                id,
                client,
                interval,
                next,
            });
        }
    }
    all
}

fn queue(rng: &mut Rng) -> Vec<Line> {
    let count = rng.pick(&[1, 2, 14, 15, 16, 16]);
    let frame = |rng: &mut Rng| {
        let length = if rng.chance(4) {
            rng.pick(&[255, 256])
        } else {
            1 + rng.below(3)
        };
        Line::Queued(client(rng), rng.bytes(length))
    };
    (0..count).map(|_| frame(rng)).collect()
}

/// Takes one part of a state to its limit, mostly past it.
fn damage(rng: &mut Rng, lines: &mut Vec<Line>) {
    let limit = LATEST + (1 << 32);
    let late = rng.pick(&[limit, limit + 1, limit + 1, (1 << 54) + 1, u64::MAX]);
    let line = match rng.below(5) {
        0 => Line::Queued(3712, vec![]),
        1 => Line::State {
            session: 1,
            level: 0,
            last_rx: late,
            functional: false,
        },
        2 => Line::Pending(Pending {
            dst: 3712,
            sid: 0x31,
            deadline: late,
        }),
        3 => Line::Lock(3, late),
        _ => Line::Periodic(Entry {
            id: 0xF201,
            client: 3712,
            interval: (1 << 32) - 1,
            next: late,
        }),
    };
    if has_room(lines, &line) {
        lines.push(line);
    }
}

/// Whether the list that a line adds to has a place left.
fn has_room(lines: &[Line], line: &Line) -> bool {
    let room = |is: fn(&Line) -> bool, most| lines.iter().filter(|l| is(l)).count() < most;
    match line {
        Line::Queued(..) => room(|l| matches!(l, Line::Queued(..)), 16),
        Line::Lock(..) => room(|l| matches!(l, Line::Lock(..)), 8),
        Line::Periodic(..) => room(|l| matches!(l, Line::Periodic(..)), 16),
        _ => true,
    }
}

/// A value table: rows for most identifiers, some twice, some missing, some damaged, over one pool.
pub fn values(rng: &mut Rng, c: &Config) -> Vec<Line> {
    let large = rng.chance(25);
    let pool = rng.pick(if large {
        &[255, 256, 257, 300]
    } else {
        &[0, 8, 8, 16]
    });
    let mut lines = vec![Line::Values];
    let mut ids: Vec<u16> = c.identifiers.iter().map(|row| row.id).take(40).collect();
    ids.dedup();
    for id in ids {
        if rng.chance(8) {
            continue;
        }
        lines.push(Line::Row(value(rng, id, pool)));
        if rng.chance(8) {
            lines.push(Line::Row(value(rng, id, pool)));
        }
    }
    lines.push(Line::Pool(rng.bytes(pool)));
    lines
}

fn value(rng: &mut Rng, id: u16, pool: usize) -> ValueRow {
    let error = if rng.chance(10) {
        rng.pick(&[0x78, 0x31, 0x22, 0x7F, 0xFF])
    } else {
        0
    };
    let pool = pool as u64;
    let length = match rng.below(8) {
        0 => rng.pick(&[0, 1, 252, 253, 254, 255, 256, 257]),
        1 => pool,
        2 => 0,
        3 if pool > 250 => rng.pick(&[252, 253, 254, 255, 256]),
        _ => rng.next() % (pool + 1),
    };
    let start = match rng.below(12) {
        0 => rng.pick(&[pool, pool + 1, u64::from(u32::MAX)]),
        1 => (pool + 1).saturating_sub(length),
        2 => 0,
        3 | 4 => pool.saturating_sub(length) / 2,
        _ => pool.saturating_sub(length),
    };
    let length = if rng.chance(2) {
        u64::from(u32::MAX)
    } else {
        length
    };
    ValueRow {
        id,
        error,
        start,
        length,
    }
}

/// A time near one that matters in the state, a step on, a step back, or around the latest that is taken.
pub fn time(rng: &mut Rng, c: &Config, s: &State, now: u64) -> u64 {
    let mut moments: Vec<u64> = s.locks.iter().map(|(_, t)| *t).collect();
    moments.extend(s.periodic.iter().map(|e| e.next));
    for _ in 0..4 {
        moments.extend(s.pending.iter().map(|p| p.deadline));
        let s3 = c
            .sessions
            .iter()
            .find(|row| row.kind == s.session)
            .map_or(5000, |row| row.s3);
        moments.push(s.last_rx.saturating_add(s3));
    }
    match rng.below(24) {
        0..8 => {
            let moment = rng.pick(&moments);
            rng.pick(&[moment.saturating_sub(1), moment, moment.saturating_add(1)])
        }
        8 => now.saturating_sub(rng.pick(&[1, 50, 5000, 20_000])),
        9 if rng.chance(25) => rng.pick(&[LATEST - 1, LATEST, LATEST + 1, u64::MAX]),
        _ => now.saturating_add(rng.pick(&[0, 0, 1, 49, 50, 51, 499, 500, 2000, 5000, 5001])),
    }
}
