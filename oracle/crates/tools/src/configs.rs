//! Configurations: rich ones in which every service can be reached, odd ones, and ones that break a number.

use form::trace::FOURTEEN;
use form::{Config, IdentifierRow, LevelRow, ServiceRow, SessionRow};

use crate::rng::Rng;

const SPANS: [u64; 12] = [
    0,
    1,
    9,
    10,
    50,
    500,
    5000,
    65_535,
    65_536,
    655_350,
    655_360,
    (1 << 32) - 1,
];

/// First bytes outside the fourteen: known and unknown to the published list, requests and responses.
pub const OTHERS: [u8; 16] = [
    0x00, 0x01, 0x12, 0x14, 0x19, 0x23, 0x29, 0x3F, 0x40, 0x50, 0x7E, 0x7F, 0x84, 0x85, 0xBA, 0xFF,
];

pub fn config(rng: &mut Rng) -> Config {
    if rng.chance(2) {
        return Config::default();
    }
    let physical = rng.pick(&[0, 16, 16, 255, 0x7E0, 65_535]);
    let functional = if rng.chance(6) {
        physical
    } else {
        rng.pick(&[2015, 2015, 1, 65_534])
    };
    let sessions = sessions(rng);
    let mut kinds: Vec<u8> = sessions.iter().map(|s| s.kind).collect();
    if rng.chance(15) && kinds.len() < 8 {
        // A session that the lists name and that has no row of its own: the defaults serve there.
        kinds.push(rng.pick(&[1, 9]));
    }
    let mut c = Config {
        physical,
        functional,
        services: services(rng, &kinds),
        identifiers: identifiers(rng, &kinds),
        levels: levels(rng),
        sessions,
    };
    if rng.chance(8) {
        break_a_number(rng, &mut c);
    }
    c
}

fn session(rng: &mut Rng, kind: u8) -> SessionRow {
    if rng.chance(40) {
        return SessionRow {
            kind,
            p2: 50,
            p2_star: 5000,
            s3: 5000,
        };
    }
    SessionRow {
        kind,
        p2: rng.pick(&SPANS),
        p2_star: rng.pick(&SPANS),
        s3: rng.pick(&SPANS),
    }
}

fn sessions(rng: &mut Rng) -> Vec<SessionRow> {
    let mut kinds = vec![1, 3];
    if rng.chance(30) {
        kinds.push(rng.pick(&[2, 3, 1, 0, 127, 255]));
    }
    if rng.chance(6) {
        kinds = vec![1, 2, 3, 4, 5, 6, 7, 3];
    }
    if rng.chance(5) {
        kinds = vec![3];
    }
    kinds.into_iter().map(|kind| session(rng, kind)).collect()
}

/// A list of sessions: mostly all of them, sometimes some, none or the most there can be.
fn list(rng: &mut Rng, kinds: &[u8]) -> Vec<u8> {
    match rng.below(20) {
        0 => Vec::new(),
        1 => vec![rng.pick(kinds)],
        2 => rng.bytes(8),
        3 => [kinds, &[1, 3, 1, 3, 1, 3, 1]].concat()[..8].to_vec(),
        _ => kinds.to_vec(),
    }
}

fn services(rng: &mut Rng, kinds: &[u8]) -> Vec<ServiceRow> {
    let mut sids = FOURTEEN.to_vec();
    let odd = rng.chance(35);
    if odd {
        sids.remove(rng.below(sids.len()));
        sids.extend([rng.pick(&OTHERS), rng.pick(&OTHERS), rng.pick(&FOURTEEN)]);
    }
    if rng.chance(5) {
        sids.extend_from_slice(&OTHERS);
        sids.truncate(24);
    }
    let row = |sid| ServiceRow {
        sid,
        level: rng.pick(&[0, 0, 1, 255]),
        sessions: if odd {
            list(rng, kinds)
        } else {
            kinds.to_vec()
        },
    };
    sids.into_iter().map(row).collect()
}

fn identifier(rng: &mut Rng, id: u16, kinds: &[u8]) -> IdentifierRow {
    IdentifierRow {
        id,
        level: rng.pick(&[0, 0, 0, 1, 3, 5, 255]),
        periodic: rng.chance(50),
        minimum: rng.pick(&[0, 0, 49, 50, 51, 499, 501, 2000, 2001, (1 << 32) - 1]),
        readable: list(rng, kinds),
        writable: list(rng, kinds),
    }
}

fn identifiers(rng: &mut Rng, kinds: &[u8]) -> Vec<IdentifierRow> {
    let mut ids = vec![0xF190, 0xF201, 0xF202];
    let more = rng.below(6);
    ids.extend(
        (0..more).map(|_| rng.pick(&[0xF200, 0xF2FF, 0x0000, 0xFFFF, 0xF190, 0xF201, 0x1234])),
    );
    if rng.chance(15) {
        ids.extend(0xF210..=0xF224);
    }
    let mut rows: Vec<_> = ids
        .into_iter()
        .map(|id| identifier(rng, id, kinds))
        .collect();
    if rng.chance(2) {
        while rows.len() < 128 {
            let id = rng.next() as u16;
            rows.push(IdentifierRow {
                id,
                readable: vec![1],
                writable: vec![],
                ..rows[0].clone()
            });
        }
    }
    rows
}

fn levels(rng: &mut Rng) -> Vec<LevelRow> {
    let mut levels = vec![3, 1];
    if rng.chance(40) {
        levels = vec![3, 5, 1, 3];
    }
    if rng.chance(5) {
        levels = vec![3, 1, 5, 7, 9, 125, 127, 4];
    }
    if rng.chance(5) {
        levels = vec![];
    }
    let row = |level| LevelRow {
        level,
        attempts: rng.pick(&[0, 1, 2, 2, 3, 3, 255]),
        lockout: rng.pick(&[0, 1, 900, 10_000, (1 << 32) - 1]),
        seed: rng.pick(&[0, 1, 4, 4, 4, 31, 32]),
        key: rng.pick(&[0, 1, 4, 4, 4, 31, 32]),
    };
    levels.into_iter().map(row).collect()
}

/// Takes one number one step, or far, past its limit.
fn break_a_number(rng: &mut Rng, c: &mut Config) {
    let long = rng.bytes(9);
    let span = rng.pick(&[1 << 32, 1 << 33, u64::MAX]);
    let last = c.identifiers.len() - 1;
    match rng.below(13) {
        0 => c.sessions.resize(9, c.sessions[0].clone()),
        1 => c.services.resize(25, c.services[0].clone()),
        2 => c.identifiers.resize(129, c.identifiers[0].clone()),
        3 => c.levels.resize(9, plain_level()),
        4 => c.sessions[0].p2 = span,
        5 => c.sessions[0].p2_star = span,
        6 => c.sessions[0].s3 = span,
        7 => c.identifiers[last].minimum = span,
        8 => c.services[0].sessions = long,
        9 => c.identifiers[last].readable = long,
        10 => c.identifiers[last].writable = long,
        11 => c.levels.insert(
            0,
            LevelRow {
                lockout: span,
                ..plain_level()
            },
        ),
        _ => {
            let (seed, key) = rng.pick(&[(33, 4), (4, 33), (256, 4), (4, 0xFFFF_FFFF)]);
            c.levels.insert(
                0,
                LevelRow {
                    seed,
                    key,
                    ..plain_level()
                },
            );
        }
    }
}

fn plain_level() -> LevelRow {
    LevelRow {
        level: 3,
        attempts: 3,
        lockout: 10_000,
        seed: 4,
        key: 4,
    }
}
