//! Two configurations, written word by word.

use super::held::Config;

const LISTED: [u32; 8] = [1, 2, 3, 4, 5, 6, 7, 8];
const SERVICES: [u32; 14] = [
    0x3E, 0x10, 0x11, 0x27, 0x22, 0x2E, 0x2A, 0x31, 0x28, 0x2F, 0x34, 0x36, 0x37, 0x38,
];

/// Rows of one table, from a place on, each of so many words.
fn rows(config: &mut Config, from: usize, words: usize, rows: &[Vec<u32>]) {
    for (place, row) in config[from..].chunks_exact_mut(words).zip(rows) {
        place[..row.len()].copy_from_slice(row);
    }
}

/// A list: how many, and eight words for them.
fn list(sessions: &[u32]) -> Vec<u32> {
    let mut words = vec![0; 9];
    words[0] = sessions.len() as u32;
    words[1..=sessions.len()].copy_from_slice(sessions);
    words
}

fn image(
    sessions: &[Vec<u32>],
    services: &[Vec<u32>],
    dids: &[Vec<u32>],
    levels: &[Vec<u32>],
) -> Config {
    let mut config = [0; 3006];
    let counts = [sessions.len(), services.len(), dids.len(), levels.len()];
    config[..2].copy_from_slice(&[16, 2015]);
    config[2..6].copy_from_slice(&counts.map(|n| n as u32));
    rows(&mut config, 6, 4, sessions);
    rows(&mut config, 38, 10, services);
    rows(&mut config, 278, 21, dids);
    rows(&mut config, 2966, 5, levels);
    config
}

fn service(sid: u32, sessions: &[u32]) -> Vec<u32> {
    [vec![sid], list(sessions)].concat()
}

fn did(identifier: u32, level: u32, sessions: &[u32]) -> Vec<u32> {
    [vec![identifier, level, 0], list(sessions), list(sessions)].concat()
}

/// That of `udstrace`: two sessions, fourteen services, two identifiers, a level.
pub fn fixed() -> Config {
    let sessions = [1, 3].map(|x| vec![x, 50, 5000, 5000]);
    let services = SERVICES.map(|sid| service(sid, &[1, 3]));
    let dids = [did(0xF190, 3, &[1, 3]), did(0xF201, 0, &[1, 3])];
    image(&sessions, &services, &dids, &[vec![3, 3, 10000, 4, 4]])
}

/// As many rows as there may be, with lists of eight.
pub fn full() -> Config {
    let sessions: Vec<_> = (1..=8).map(|x| vec![x, 50, 5000, 5000]).collect();
    let services: Vec<_> = (0..24).map(|sid| service(sid, &LISTED)).collect();
    let dids: Vec<_> = (0..128).map(|i| did(i, 0, &LISTED)).collect();
    let levels: Vec<_> = (0..8).map(|i| vec![i, 3, 10000, 32, 32]).collect();
    image(&sessions, &services, &dids, &levels)
}
