//! The proved server by its lent door, linked as a static library.

use super::call::{self, After, Call, Kind, Side, T, records};
use crate::queue::{Heads, Room};
use crate::state::held::{Config, Held, Security, State, Subscriptions};

#[repr(C)]
#[derive(Default)]
struct Part {
    start: usize,
    len: usize,
}

#[repr(C)]
#[derive(Default)]
struct Act {
    parts: [Part; 3],
    number: u8,
    count: u8,
}

#[repr(C)]
struct Answered {
    state: State,
    result: u8,
    act: Act,
}

#[repr(C)]
struct Asked {
    act: Act,
    result: u8,
}

#[repr(C)]
struct Ticked {
    state: State,
    result: u8,
    err: u8,
}

#[repr(C)]
struct Answer {
    state: State,
    result: u8,
}

#[repr(C)]
struct Drained {
    state: State,
    result: u8,
    frames: u8,
}

// Nothing checks these against the Rattle source: they are the functions of `crates/calls_bench`. A slice passes as its first element and its
// length. Every case is held to what must be seen after it, which would show a slip.
unsafe extern "C" {
    fn bench_server_request(
        config: &Config,
        state: State,
        security: &mut Security,
        subscriptions: &mut Subscriptions,
        heads: &mut Heads,
        room: &mut Room,
        t: u64,
        src: u32,
        dst: u32,
        frame: *const u8,
        length: usize,
        err: u8,
        given: *const u8,
        bytes: usize,
        values: *const u32,
        words: usize,
        pool: *const u8,
        pooled: usize,
    ) -> Answered;

    fn bench_server_question(
        config: &Config,
        state: State,
        security: &Security,
        subscriptions: &Subscriptions,
        heads: &Heads,
        room: &Room,
        t: u64,
        src: u32,
        dst: u32,
        frame: *const u8,
        length: usize,
    ) -> Asked;

    fn bench_server_tick(
        config: &Config,
        state: State,
        security: &mut Security,
        subscriptions: &mut Subscriptions,
        heads: &mut Heads,
        room: &mut Room,
        t: u64,
        values: *const u32,
        words: usize,
        pool: *const u8,
        pooled: usize,
    ) -> Ticked;

    fn bench_server_complete(
        config: &Config,
        state: State,
        security: &Security,
        subscriptions: &Subscriptions,
        heads: &mut Heads,
        room: &mut Room,
        t: u64,
        payload: *const u8,
        bytes: usize,
    ) -> Answer;

    safe fn bench_server_fail(
        config: &Config,
        state: State,
        security: &Security,
        subscriptions: &Subscriptions,
        heads: &mut Heads,
        room: &mut Room,
        t: u64,
        code: u8,
    ) -> Answer;

    fn bench_server_drain(
        config: &Config,
        state: State,
        security: &Security,
        subscriptions: &Subscriptions,
        heads: &Heads,
        room: &Room,
        out: *mut u8,
        length: usize,
    ) -> Drained;
}

pub struct Ours {
    call: Call,
    held: Held,
    /// What the last call gave back.
    state: State,
    result: u8,
    /// The error byte that comes with result 8.
    err: u8,
    drained: u8,
    /// What the last question answered.
    act: Act,
}

/// The state that is held stays as it was: the one after is kept beside it.
fn request(o: &mut Ours, _: &mut [u8]) {
    let (h, c) = (&mut o.held, &o.call);
    // SAFETY: each pointer and length are a slice that is lent for the call; the function has no `requires`.
    let a = unsafe {
        bench_server_request(
            &h.config,
            h.state,
            &mut h.security,
            &mut h.subscriptions,
            &mut h.heads,
            &mut h.room,
            T,
            c.src,
            c.dst,
            c.frame.as_ptr(),
            c.frame.len(),
            c.err,
            c.given.as_ptr(),
            c.given.len(),
            c.values.as_ptr(),
            c.values.len(),
            c.pool.as_ptr(),
            c.pool.len(),
        )
    };
    (o.state, o.result) = (a.state, a.result);
}

fn question(o: &mut Ours, _: &mut [u8]) {
    let (h, c) = (&o.held, &o.call);
    // SAFETY: as above.
    let a = unsafe {
        bench_server_question(
            &h.config,
            h.state,
            &h.security,
            &h.subscriptions,
            &h.heads,
            &h.room,
            T,
            c.src,
            c.dst,
            c.frame.as_ptr(),
            c.frame.len(),
        )
    };
    (o.act, o.result) = (a.act, a.result);
}

fn tick(o: &mut Ours, _: &mut [u8]) {
    let (h, c) = (&mut o.held, &o.call);
    // SAFETY: as above.
    let a = unsafe {
        bench_server_tick(
            &h.config,
            h.state,
            &mut h.security,
            &mut h.subscriptions,
            &mut h.heads,
            &mut h.room,
            T,
            c.values.as_ptr(),
            c.values.len(),
            c.pool.as_ptr(),
            c.pool.len(),
        )
    };
    (o.state, o.result, o.err) = (a.state, a.result, a.err);
}

fn complete(o: &mut Ours, _: &mut [u8]) {
    let (h, c) = (&mut o.held, &o.call);
    // SAFETY: as above.
    let a = unsafe {
        bench_server_complete(
            &h.config,
            h.state,
            &h.security,
            &h.subscriptions,
            &mut h.heads,
            &mut h.room,
            T,
            c.given.as_ptr(),
            c.given.len(),
        )
    };
    (o.state, o.result) = (a.state, a.result);
}

fn fail(o: &mut Ours, _: &mut [u8]) {
    let (h, c) = (&mut o.held, &o.call);
    let a = bench_server_fail(
        &h.config,
        h.state,
        &h.security,
        &h.subscriptions,
        &mut h.heads,
        &mut h.room,
        T,
        c.err,
    );
    (o.state, o.result) = (a.state, a.result);
}

fn drain(o: &mut Ours, out: &mut [u8]) {
    let h = &o.held;
    // SAFETY: as above.
    let d = unsafe {
        bench_server_drain(
            &h.config,
            h.state,
            &h.security,
            &h.subscriptions,
            &h.heads,
            &h.room,
            out.as_mut_ptr(),
            out.len(),
        )
    };
    (o.state, o.result, o.drained) = (d.state, d.result, d.frames);
}

impl Side for Ours {
    const NAME: &str = "Rattle";

    fn new(call: Call) -> Self {
        let held = call.held.clone();
        Self {
            state: held.state,
            held,
            call,
            result: 0,
            err: 0,
            drained: 0,
            act: Act::default(),
        }
    }

    fn ready(&mut self) {
        self.held.security = self.call.held.security;
        self.held.subscriptions = self.call.held.subscriptions;
    }

    fn run(kind: Kind) -> Option<fn(&mut Self, &mut [u8])> {
        Some(match kind {
            Kind::Request => request,
            Kind::Question => question,
            Kind::Tick => tick,
            Kind::Complete => complete,
            Kind::Fail => fail,
            Kind::Drain => drain,
        })
    }

    fn after(&self, out: &[u8]) -> After {
        let mut held = self.held.clone();
        held.state = self.state;
        let (number, count) = (self.act.number, usize::from(self.act.count));
        let parts = self.act.parts[..count].iter();
        After {
            result: self.result,
            err: self.err,
            drained: records(out, usize::from(self.drained)),
            act: call::Act {
                number,
                parts: parts.map(|p| (p.start, p.len)).collect(),
            },
            ..After::of(&held)
        }
    }
}
