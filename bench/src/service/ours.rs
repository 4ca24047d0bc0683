//! The proved services, linked as a static library.

use super::asked::{Asked, Said};
use crate::queue::Room;
use crate::state::held::{Config, Security, Subscriptions};

#[repr(C)]
struct Part {
    start: usize,
    len: usize,
}

#[repr(C)]
struct Act {
    parts: [Part; 3],
    number: u8,
    count: u8,
}

#[repr(C)]
struct ToldSpoken {
    reply: Said,
    act: Act,
}

#[repr(C)]
struct ToldWanted {
    reply: Said,
    act: Act,
    session: u8,
    level: u8,
    subscriptions: u8,
    waits: bool,
    clears_seed: bool,
}

// Who asks, and when.
const SRC: u32 = 3712;
const T: u64 = 5000;

// Nothing checks these against the Rattle source: they are the functions of `crates/service_bench`, with `Part` and `Act` of `crates/service`,
// whose three parts stand one after the other. A slice passes as its first element and its length.
unsafe extern "C" {
    fn bench_service10(
        config: &Config,
        session: u8,
        level: u8,
        subscriptions: u8,
        frames: u8,
        payload: *const u8,
        length: usize,
        room: &mut Room,
    ) -> ToldWanted;

    fn bench_service11(
        session: u8,
        level: u8,
        subscriptions: u8,
        frames: u8,
        payload: *const u8,
        length: usize,
        err: u8,
        given: *const u8,
        bytes: usize,
        room: &mut Room,
    ) -> ToldWanted;

    fn bench_service22(
        config: &Config,
        session: u8,
        level: u8,
        frames: u8,
        values: *const u32,
        words: usize,
        pool: *const u8,
        pooled: usize,
        payload: *const u8,
        length: usize,
        room: &mut Room,
    ) -> ToldSpoken;

    fn bench_service27(
        config: &Config,
        session: u8,
        level: u8,
        subscriptions: u8,
        frames: u8,
        payload: *const u8,
        length: usize,
        t: u64,
        err: u8,
        given: *const u8,
        bytes: usize,
        k: &mut Security,
        room: &mut Room,
    ) -> ToldWanted;

    fn bench_service2A(
        config: &Config,
        session: u8,
        level: u8,
        subscriptions: u8,
        frames: u8,
        src: u32,
        t: u64,
        payload: *const u8,
        length: usize,
        subs: &mut Subscriptions,
        room: &mut Room,
    ) -> ToldWanted;

    fn bench_service2E(
        config: &Config,
        session: u8,
        level: u8,
        frames: u8,
        payload: *const u8,
        length: usize,
        err: u8,
        given: *const u8,
        bytes: usize,
        room: &mut Room,
    ) -> ToldSpoken;

    fn bench_service3E(
        frames: u8,
        payload: *const u8,
        length: usize,
        room: &mut Room,
    ) -> ToldSpoken;
}

/// Those that see the payload and what was handed in for their act, and no more.
macro_rules! acting {
    ($($name:ident $linked:ident)*) => {
        unsafe extern "C" {
            $(fn $linked(frames: u8, payload: *const u8, length: usize, err: u8, given: *const u8, bytes: usize, room: &mut Room) -> ToldSpoken;)*
        }

        $(#[inline]
        pub fn $name(a: &mut Asked) -> Said {
            let (p, g) = (&a.payload, &a.given);
            // SAFETY: each pointer and length are a slice that is lent for the call; the function has no `requires`.
            unsafe { $linked(0, p.as_ptr(), p.len(), a.err, g.as_ptr(), g.len(), &mut a.room) }.reply
        })*
    };
}

acting! {
    service28 bench_service28
    service2f bench_service2F
    service31 bench_service31
    service34 bench_service34
    service36 bench_service36
    service37 bench_service37
    service38 bench_service38
}

#[inline]
pub fn service10(a: &mut Asked) -> Said {
    let p = &a.payload;
    // SAFETY: as above.
    unsafe {
        bench_service10(
            &a.config,
            a.session,
            0,
            0,
            0,
            p.as_ptr(),
            p.len(),
            &mut a.room,
        )
    }
    .reply
}

#[inline]
pub fn service11(a: &mut Asked) -> Said {
    let (p, g) = (&a.payload, &a.given);
    let (bytes, given) = (p.as_ptr(), g.as_ptr());
    // SAFETY: as above.
    unsafe {
        bench_service11(
            a.session,
            0,
            0,
            0,
            bytes,
            p.len(),
            a.err,
            given,
            g.len(),
            &mut a.room,
        )
    }
    .reply
}

#[inline]
pub fn service22(a: &mut Asked) -> Said {
    let (v, q, p) = (&a.values, &a.pool, &a.payload);
    // SAFETY: as above.
    let told = unsafe {
        bench_service22(
            &a.config,
            a.session,
            0,
            0,
            v.as_ptr(),
            v.len(),
            q.as_ptr(),
            q.len(),
            p.as_ptr(),
            p.len(),
            &mut a.room,
        )
    };
    told.reply
}

#[inline]
pub fn service27(a: &mut Asked) -> Said {
    let (p, g) = (&a.payload, &a.given);
    // SAFETY: as above.
    let told = unsafe {
        bench_service27(
            &a.config,
            a.session,
            0,
            0,
            0,
            p.as_ptr(),
            p.len(),
            T,
            a.err,
            g.as_ptr(),
            g.len(),
            &mut a.security,
            &mut a.room,
        )
    };
    told.reply
}

/// No subscription stands before.
#[inline]
pub fn service2A(a: &mut Asked) -> Said {
    let p = &a.payload;
    // SAFETY: as above.
    let told = unsafe {
        bench_service2A(
            &a.config,
            a.session,
            0,
            0,
            0,
            SRC,
            T,
            p.as_ptr(),
            p.len(),
            &mut a.subscriptions,
            &mut a.room,
        )
    };
    told.reply
}

#[inline]
pub fn service2E(a: &mut Asked) -> Said {
    let (p, g) = (&a.payload, &a.given);
    let (bytes, given) = (p.as_ptr(), g.as_ptr());
    // SAFETY: as above.
    let told = unsafe {
        bench_service2E(
            &a.config,
            a.session,
            0,
            0,
            bytes,
            p.len(),
            a.err,
            given,
            g.len(),
            &mut a.room,
        )
    };
    told.reply
}

#[inline]
pub fn service3E(a: &mut Asked) -> Said {
    let p = &a.payload;
    // SAFETY: as above.
    unsafe { bench_service3E(0, p.as_ptr(), p.len(), &mut a.room) }.reply
}
