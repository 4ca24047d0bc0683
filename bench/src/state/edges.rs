//! The numbers that a state can be outside of: where each stands, the last good one and some that are not.

use super::held::{Held, MAX_MOMENT, MAX_SPAN};

pub struct Edge {
    pub name: &'static str,
    pub last: u64,
    pub past: [u64; 2],
    /// How many rows have this number and are looked at.
    pub rows: fn(&Held) -> usize,
    pub get: fn(&Held, usize) -> u64,
    pub put: fn(&mut Held, usize, u64),
}

fn once(_: &Held) -> usize {
    1
}

/// Numbers that tell how many rows are looked at come before the rows.
pub const EDGES: [Edge; 15] = [
    Edge {
        name: "sessions",
        last: 8,
        past: [9, u32::MAX as u64],
        rows: once,
        get: |h, _| h.config[2].into(),
        put: |h, _, n| h.config[2] = n as u32,
    },
    Edge {
        name: "services",
        last: 24,
        past: [25, 1 << 31],
        rows: once,
        get: |h, _| h.config[3].into(),
        put: |h, _, n| h.config[3] = n as u32,
    },
    Edge {
        name: "identifiers",
        last: 128,
        past: [129, 256],
        rows: once,
        get: |h, _| h.config[4].into(),
        put: |h, _, n| h.config[4] = n as u32,
    },
    Edge {
        name: "levels",
        last: 8,
        past: [9, 1 << 16],
        rows: once,
        get: |h, _| h.config[5].into(),
        put: |h, _, n| h.config[5] = n as u32,
    },
    Edge {
        name: "last request",
        last: MAX_MOMENT,
        past: [MAX_MOMENT + 1, u64::MAX],
        rows: once,
        get: |h, _| h.state.session.last_rx,
        put: |h, _, n| h.state.session.last_rx = n,
    },
    Edge {
        name: "seed",
        last: 32,
        past: [33, 1 << 32],
        rows: once,
        get: |h, _| h.security[0],
        put: |h, _, n| h.security[0] = n,
    },
    Edge {
        name: "counts",
        last: 8,
        past: [9, 1 << 8],
        rows: once,
        get: |h, _| h.security[2],
        put: |h, _, n| h.security[2] = n,
    },
    Edge {
        name: "locks",
        last: 8,
        past: [9, 1 << 32],
        rows: once,
        get: |h, _| h.security[3],
        put: |h, _, n| h.security[3] = n,
    },
    Edge {
        name: "end of a lock",
        last: MAX_MOMENT,
        past: [MAX_MOMENT + 1, u64::MAX],
        rows: |h| h.security[3].min(8) as usize,
        get: |h, i| h.security[53 + 2 * i],
        put: |h, i, n| h.security[53 + 2 * i] = n,
    },
    Edge {
        name: "subscriptions",
        last: 16,
        past: [17, 255],
        rows: once,
        get: |h, _| h.state.subscriptions.into(),
        put: |h, _, n| h.state.subscriptions = n as u8,
    },
    Edge {
        name: "interval",
        last: MAX_SPAN - 1,
        past: [MAX_SPAN, u64::MAX],
        rows: |h| usize::from(h.state.subscriptions).min(16),
        get: |h, i| h.subscriptions[4 * i + 2],
        put: |h, i, n| h.subscriptions[4 * i + 2] = n,
    },
    Edge {
        name: "next sending",
        last: MAX_MOMENT,
        past: [MAX_MOMENT + 1, u64::MAX],
        rows: |h| usize::from(h.state.subscriptions).min(16),
        get: |h, i| h.subscriptions[4 * i + 3],
        put: |h, i, n| h.subscriptions[4 * i + 3] = n,
    },
    Edge {
        name: "deadline",
        last: MAX_MOMENT,
        past: [MAX_MOMENT + 1, u64::MAX],
        rows: |h| usize::from(h.state.pending.on),
        get: |h, _| h.state.pending.deadline,
        put: |h, _, n| h.state.pending.deadline = n,
    },
    Edge {
        name: "frames",
        last: 16,
        past: [17, 255],
        rows: once,
        get: |h, _| h.state.frames.into(),
        put: |h, _, n| h.state.frames = n as u8,
    },
    Edge {
        name: "frame",
        last: 256,
        past: [257, 0],
        rows: |h| usize::from(h.state.frames).min(16),
        get: |h, i| h.heads[2 * i + 1].into(),
        put: |h, i, n| h.heads[2 * i + 1] = n as u32,
    },
];
