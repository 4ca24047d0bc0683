//! What a server holds by value and what is lent beside it, in plain arrays, so that it can be put in any state and read back.

use crate::queue::{Arrays, Heads, Room};

/// Two addresses, how many sessions, services, identifiers and levels, then the rows.
pub type Config = [u32; 3006];

/// The seed's length and level, how many counts and locks, 32 bytes of the seed, eight times (level, refused keys), eight times (level,
/// until).
pub type Security = [u64; 68];

/// Sixteen times identifier, client, interval, next.
pub type Subscriptions = [u64; 64];

/// The last moment that a state may hold.
pub const MAX_MOMENT: u64 = (1 << 48) + (1 << 32);

/// No span reaches this.
pub const MAX_SPAN: u64 = 1 << 32;

#[repr(C)]
#[derive(Clone, Copy, Debug, PartialEq)]
pub struct Session {
    pub last_rx: u64,
    pub session_type: u8,
    pub level: u8,
}

#[repr(C)]
#[derive(Clone, Copy, Debug, PartialEq)]
pub struct Pending {
    pub deadline: u64,
    pub dst: u32,
    pub sid: u8,
    pub on: bool,
}

#[repr(C)]
#[derive(Clone, Copy, Debug, PartialEq)]
pub struct State {
    pub session: Session,
    pub pending: Pending,
    pub functional: bool,
    pub subscriptions: u8,
    pub frames: u8,
}

#[derive(Clone)]
pub struct Held {
    pub config: Config,
    pub state: State,
    pub security: Security,
    pub subscriptions: Subscriptions,
    pub heads: Heads,
    pub room: Room,
}

impl Held {
    /// A fresh server.
    pub fn fresh(config: Config) -> Self {
        Self {
            config,
            state: State {
                session: Session {
                    last_rx: 0,
                    session_type: 1,
                    level: 0,
                },
                pending: Pending {
                    deadline: 0,
                    dst: 0,
                    sid: 0,
                    on: false,
                },
                functional: false,
                subscriptions: 0,
                frames: 0,
            },
            security: [0; 68],
            subscriptions: [0; 64],
            heads: [0; 32],
            room: [0; 4353],
        }
    }

    /// The waiting frames.
    pub fn queue(&self) -> Arrays {
        Arrays {
            count: self.state.frames,
            heads: self.heads,
            room: self.room,
        }
    }
}

/// To whom a reply goes, for which service, and when and how its request came.
#[derive(Clone, Copy)]
pub struct Asked {
    pub to: u32,
    pub sid: u8,
    pub t: u64,
    pub functional: bool,
}

/// What a service says.
#[derive(Clone, Copy)]
pub enum Reply {
    Silent,
    /// So many bytes, which stand in the free place behind its first.
    Positive(u8),
    Negative(u8),
    /// A code that is sent however the request was addressed.
    Always(u8),
    Pends,
}

/// What a service wants.
#[derive(Clone, Copy)]
pub struct Effect {
    pub reply: Reply,
    pub session: u8,
    pub level: u8,
    pub subscriptions: u8,
    pub waits: bool,
    pub clears_seed: bool,
}
