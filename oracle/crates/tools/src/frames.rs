//! Request frames for each service, with every length around its boundaries, and the outcomes to go with them.

use form::trace::FOURTEEN;
use form::{Outcome, Server};

use crate::configs::OTHERS;
use crate::rng::Rng;

/// Around the limits of an act's bytes and of the replies that carry them.
const LENGTHS: [usize; 17] = [
    0, 0, 1, 1, 2, 4, 63, 64, 65, 251, 252, 253, 254, 255, 256, 257, 300,
];

const ERRORS: [u8; 12] = [
    0x78, 0x78, 0x78, 0x11, 0x12, 0x31, 0x7E, 0x7F, 0x22, 0x33, 0x01, 0xFF,
];

pub fn frame(rng: &mut Rng, s: &Server) -> Vec<u8> {
    let mut frame = match rng.below(40) {
        0 => return vec![],
        1 => return vec![rng.pick(&FOURTEEN)],
        2 | 3 => [vec![rng.pick(&OTHERS)], some(rng, 3)].concat(),
        4 => return long(rng, s),
        _ => by_service(rng, s),
    };
    match rng.below(10) {
        0 => frame.truncate(1 + rng.below(6)),
        1 => frame.push(rng.byte()),
        _ => {}
    }
    frame
}

/// Around 4095, the longest frame that is taken.
fn long(rng: &mut Rng, s: &Server) -> Vec<u8> {
    if !rng.chance(15) {
        return by_service(rng, s);
    }
    let mut frame = by_service(rng, s);
    let filler = rng.byte();
    frame.resize(rng.pick(&[4094, 4095, 4095, 4096, 4097]), filler);
    frame
}

fn some(rng: &mut Rng, most: usize) -> Vec<u8> {
    let n = rng.below(most + 1);
    rng.bytes(n)
}

fn by_service(rng: &mut Rng, s: &Server) -> Vec<u8> {
    // The services with the most rules come up more often.
    let sid = match rng.below(10) {
        0 | 1 => 0x27,
        2 => 0x22,
        3 => 0x2A,
        _ => rng.pick(&FOURTEEN),
    };
    let payload = match sid {
        0x3E => sub(rng, &[0, 0, 1, 0x7F]),
        0x10 => session(rng, s),
        0x11 => sub(rng, &[1, 2, 3, 0, 0x7F]),
        0x27 => access(rng, s),
        0x22 => read(rng, s),
        0x2E => [identifier(rng, s).to_vec(), some(rng, 5)].concat(),
        0x2A => periodic(rng, s),
        0x31 => [sub(rng, &[1, 2, 3]), rng.bytes(2), some(rng, 3)].concat(),
        0x28 => [sub(rng, &[0, 1, 3]), some(rng, 2)].concat(),
        0x2F => [identifier(rng, s).to_vec(), some(rng, 4)].concat(),
        0x34 => download(rng),
        0x38 => file(rng),
        _ => some(rng, 4),
    };
    [vec![sid], payload].concat()
}

/// A sub-function, a quarter of the time with the suppress bit.
fn sub(rng: &mut Rng, of: &[u8]) -> Vec<u8> {
    let bit = if rng.chance(25) { 0x80 } else { 0 };
    vec![rng.pick(of) | bit]
}

fn session(rng: &mut Rng, s: &Server) -> Vec<u8> {
    let kinds: Vec<u8> = s
        .config
        .sessions
        .iter()
        .map(|row| row.kind & 0x7F)
        .collect();
    let kind = if kinds.is_empty() || rng.chance(12) {
        rng.byte() & 0x7F
    } else {
        rng.pick(&kinds)
    };
    sub(rng, &[kind])
}

/// Mostly one of the configured identifiers.
fn identifier(rng: &mut Rng, s: &Server) -> [u8; 2] {
    let ids: Vec<u16> = s.config.identifiers.iter().map(|row| row.id).collect();
    let id = if ids.is_empty() || rng.chance(8) {
        rng.next() as u16
    } else {
        rng.pick(&ids)
    };
    id.to_be_bytes()
}

fn read(rng: &mut Rng, s: &Server) -> Vec<u8> {
    let count = rng.pick(&[1, 1, 1, 1, 1, 2, 2, 3, 4, 5]);
    if rng.chance(6) {
        // Only a long row of empty values makes an identifier, not a value, cross the limit.
        return identifier(rng, s).repeat(rng.pick(&[126, 127, 128, 129, 130]));
    }
    (0..count).flat_map(|_| identifier(rng, s)).collect()
}

/// Mostly the key for the seed that is pending, of the configured length.
fn access(rng: &mut Rng, s: &Server) -> Vec<u8> {
    let pending = s.state.seed_level;
    let bit = if rng.chance(10) { 0x80 } else { 0 };
    if rng.chance(6) {
        let kind = rng.pick(&[0, 2, 4, 7, 0x7F, 0x7E]) | bit;
        return [vec![kind], some(rng, 5)].concat();
    }
    if rng.chance(if pending != 0 { 75 } else { 15 }) {
        return key(rng, s, bit);
    }
    let levels: Vec<u8> = s.config.levels.iter().map(|row| row.level).collect();
    let level = if levels.is_empty() {
        3
    } else {
        rng.pick(&levels)
    };
    let rest = if rng.chance(20) { 3 } else { 0 };
    [vec![level & 0x7F | bit], some(rng, rest)].concat()
}

/// A key for the level whose seed is pending, of about the configured length.
fn key(rng: &mut Rng, s: &Server, bit: u8) -> Vec<u8> {
    let pending = s.state.seed_level;
    let own = pending != 0 && rng.chance(90);
    let level = if own { pending } else { rng.pick(&[1, 3, 5]) };
    let row = s.config.levels.iter().find(|row| row.level == level);
    let expected = row.map_or(4, |row| row.key.min(40) as usize);
    let length = match rng.below(10) {
        0 => expected.saturating_sub(1),
        1 => expected + 1,
        2 => rng.below(6),
        _ => expected,
    };
    [vec![level.wrapping_add(1) & 0x7F | bit], rng.bytes(length)].concat()
}

/// Few modes are wrong; identifiers are those of the table or of the configuration.
fn periodic(rng: &mut Rng, s: &Server) -> Vec<u8> {
    let mode = rng.pick(&[1, 1, 2, 2, 3, 3, 3, 4, 4, 0, 5, 0x81, 0x84]);
    let mut lows: Vec<u8> = s
        .config
        .identifiers
        .iter()
        .map(|row| row.id as u8)
        .collect();
    lows.extend(s.state.periodic.iter().map(|e| e.id as u8));
    if rng.chance(20) {
        lows.push(rng.byte());
    }
    if lows.is_empty() {
        return vec![mode];
    }
    let count = rng.pick(&[0, 1, 1, 1, 2, 2, 3, 3, 18]);
    [vec![mode], (0..count).map(|_| rng.pick(&lows)).collect()].concat()
}

fn download(rng: &mut Rng) -> Vec<u8> {
    let (address, size) = (rng.below(16), rng.below(16));
    let (address, size) = match rng.below(4) {
        0 => (0, size),
        1 => (address, 0),
        2 => (4, 4),
        _ => (address, size),
    };
    let there = match rng.below(5) {
        0 => (address + size).saturating_sub(1),
        1 => address + size + 1,
        2 => address,
        _ => address + size,
    };
    [
        vec![rng.byte(), (address << 4 | size) as u8],
        rng.bytes(there),
    ]
    .concat()
}

fn file(rng: &mut Rng) -> Vec<u8> {
    let path = some(rng, 6);
    let told: u16 = match rng.below(6) {
        0 => path.len() as u16 + 1,
        1 => (path.len() as u16).saturating_sub(1),
        2 => rng.pick(&[0, 256, 0x0100, 65_535]),
        _ => path.len() as u16,
    };
    let [high, low] = told.to_be_bytes();
    [vec![rng.byte(), high, low], path].concat()
}

/// An outcome: for a seed mostly of the configured length.
pub fn outcome(rng: &mut Rng, s: &Server, frame: &[u8]) -> Outcome {
    let kind = frame.get(1).map_or(0, |b| b & 0x7F);
    let sid = frame.first().copied().unwrap_or(0);
    let refusing = if sid == 0x27 && kind % 2 == 0 { 45 } else { 20 };
    let error = match rng.below(100) {
        n if n >= refusing => 0,
        n if n % 5 == 0 => rng.byte(),
        _ => rng.pick(&ERRORS),
    };
    let asked = s
        .config
        .levels
        .iter()
        .find(|row| row.level == kind)
        .map(|row| row.seed);
    let length = match asked {
        Some(seed) if sid == 0x27 && rng.chance(80) => (seed as usize).min(40),
        _ if error != 0 && rng.chance(70) => 0,
        _ if sid == 0x27 => rng.pick(&[0, 1, 3, 4, 5, 31, 32, 33, 64, 256, 257]),
        _ => rng.pick(&LENGTHS),
    };
    Outcome {
        error,
        bytes: rng.bytes(length),
    }
}
