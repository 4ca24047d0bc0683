//! What a service is asked and lent, in plain arrays.

use crate::queue::Room;
use crate::state::config;
use crate::state::held::{Config, Security, Subscriptions};

/// A reply by number: 0 says nothing, 1 a payload of n bytes, 2 the code n, 3 a code that is always sent, 4 that the request is pending.
#[repr(C)]
#[derive(Clone, Copy, Debug, PartialEq)]
pub struct Said {
    pub n: usize,
    pub kind: u8,
}

pub const fn positive(n: usize) -> Said {
    Said { n, kind: 1 }
}

pub const fn negative(code: usize) -> Said {
    Said { n: code, kind: 2 }
}

#[derive(Clone)]
pub struct Asked {
    pub config: Config,
    pub security: Security,
    pub subscriptions: Subscriptions,
    pub room: Room,
    pub values: Vec<u32>,
    pub pool: Vec<u8>,
    pub payload: Vec<u8>,
    pub err: u8,
    pub given: Vec<u8>,
    pub session: u8,
    /// What was said last.
    pub said: Said,
}

/// The fixed configuration; F201 has a value of so many bytes.
pub fn fixed(value: u32) -> Asked {
    Asked {
        config: config::fixed(),
        security: [0; 68],
        subscriptions: [0; 64],
        room: [0; 4353],
        values: vec![0xF190, 0, 0, 17, 0xF201, 0, 0, value],
        pool: vec![0xA5; 256],
        payload: vec![],
        err: 0,
        given: vec![],
        session: 3,
        said: Said { n: 0, kind: 0 },
    }
}

/// 8 sessions, 128 identifiers from F200 on, each with a value of so many bytes, and 8 levels, the last with a seed of 31 bytes.
pub fn full(value: u32) -> Asked {
    let mut asked = fixed(value);
    asked.config = config::full();
    for (i, row) in asked.config[278..2966].chunks_exact_mut(21).enumerate() {
        row[0] = 0xF200 + i as u32;
    }
    asked.config[2966 + 5 * 7 + 3] = 31;
    asked.values = (0..128).flat_map(|i| [0xF200 + i, 0, 0, value]).collect();
    asked
}

impl Asked {
    pub fn of(mut self, payload: &[u8]) -> Self {
        self.payload = payload.to_vec();
        self
    }

    /// The payload, then so many bytes behind it.
    pub fn and(mut self, bytes: usize) -> Self {
        self.payload.resize(self.payload.len() + bytes, 0x5A);
        self
    }

    /// So many times this identifier.
    pub fn reads(mut self, id: u16, times: usize) -> Self {
        self.payload = id.to_be_bytes().repeat(times);
        self
    }

    /// So many bytes handed in for the act.
    pub fn given(mut self, bytes: usize) -> Self {
        self.given = vec![0xC3; bytes];
        self
    }

    /// An error handed in for the act.
    pub fn failed(mut self, err: u8) -> Self {
        self.err = err;
        self
    }
}
