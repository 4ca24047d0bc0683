//! The proved functions, linked as a static library.

use super::held::{Asked, Config, Effect, Held, Reply, Security, State, Subscriptions};
use crate::queue::{Heads, Room};

#[repr(C)]
#[derive(Clone, Copy)]
pub struct Answer {
    pub state: State,
    pub result: u8,
}

// Nothing checks these against the Rattle source: they are the functions of `crates/state_bench`, and `State` and `Answer` of
// `crates/state`. The comparison would show a slip. They take numbers and whole arrays alone, and ask nothing of them.
unsafe extern "C" {
    safe fn bench_is_valid(
        config: &Config,
        state: State,
        security: &Security,
        subscriptions: &Subscriptions,
        heads: &Heads,
        room: &Room,
    ) -> bool;

    safe fn bench_apply(
        config: &Config,
        state: State,
        security: &mut Security,
        heads: &mut Heads,
        room: &mut Room,
        to: u32,
        sid: u8,
        t: u64,
        functional: bool,
        kind: u8,
        n: u8,
        session: u8,
        level: u8,
        subscriptions: u8,
        waits: bool,
        clears_seed: bool,
    ) -> Answer;
}

#[inline]
pub fn is_valid(h: &Held) -> bool {
    let (config, security) = (&h.config, &h.security);
    bench_is_valid(
        config,
        h.state,
        security,
        &h.subscriptions,
        &h.heads,
        &h.room,
    )
}

/// The state that is held stays as it was: the one after is in the answer.
#[inline]
pub fn apply(h: &mut Held, asked: Asked, e: Effect) -> Answer {
    let (kind, n) = match e.reply {
        Reply::Silent => (0, 0),
        Reply::Positive(length) => (1, length),
        Reply::Negative(code) => (2, code),
        Reply::Always(code) => (3, code),
        Reply::Pends => (4, 0),
    };
    bench_apply(
        &h.config,
        h.state,
        &mut h.security,
        &mut h.heads,
        &mut h.room,
        asked.to,
        asked.sid,
        asked.t,
        asked.functional,
        kind,
        n,
        e.session,
        e.level,
        e.subscriptions,
        e.waits,
        e.clears_seed,
    )
}
