//! The proved queue, linked as a static library.

use crate::queue::{Arrays, Heads, Queue, Room};

// Nothing checks these against the Rattle source: they are `Drained` of `crates/queue`, and `Pushed` and the functions of
// `crates/queue_bench`, where a slice passes as its first byte and its length. The comparison would show a slip.
#[repr(C)]
struct Pushed {
    result: u8,
    count: u8,
}

#[repr(C)]
struct Drained {
    result: u8,
    frames: u8,
    count: u8,
}

unsafe extern "C" {
    fn bench_confirm(
        count: u8,
        heads: &mut Heads,
        room: &mut Room,
        functional: bool,
        to: u32,
        sid: u8,
        payload: *const u8,
        length: usize,
    ) -> Pushed;

    // Takes numbers and whole arrays alone, and asks nothing of them.
    safe fn bench_refuse(
        count: u8,
        heads: &mut Heads,
        room: &mut Room,
        functional: bool,
        to: u32,
        sid: u8,
        code: u8,
    ) -> Pushed;

    fn bench_drain(
        count: u8,
        heads: &Heads,
        room: &Room,
        out: *mut u8,
        length: usize,
    ) -> Drained;
}

// The wrappers are taken into their callers: the linked functions are never, and so stand behind one call, as the others do.
pub struct Ours(pub Arrays);

impl Queue for Ours {
    const NAME: &str = "Rattle";

    fn new() -> Self {
        Self(Arrays::EMPTY)
    }

    #[inline]
    fn confirm(&mut self, functional: bool, to: u32, sid: u8, payload: &[u8]) -> u8 {
        let Arrays { count, heads, room } = &mut self.0;
        let (bytes, length) = (payload.as_ptr(), payload.len());
        // SAFETY: `bytes` and `length` are a slice that is lent for the call; the function has no `requires`.
        let pushed =
            unsafe { bench_confirm(*count, heads, room, functional, to, sid, bytes, length) };
        *count = pushed.count;
        pushed.result
    }

    #[inline]
    fn refuse(&mut self, functional: bool, to: u32, sid: u8, code: u8) -> u8 {
        let Arrays { count, heads, room } = &mut self.0;
        let pushed = bench_refuse(*count, heads, room, functional, to, sid, code);
        *count = pushed.count;
        pushed.result
    }

    #[inline]
    fn drain(&mut self, out: &mut [u8]) -> (u8, u8) {
        let Arrays { count, heads, room } = &mut self.0;
        // SAFETY: the pointer and the length are a slice that is lent for the call; the function has no `requires`.
        let drained = unsafe { bench_drain(*count, heads, room, out.as_mut_ptr(), out.len()) };
        *count = drained.count;
        (drained.result, drained.frames)
    }
}
