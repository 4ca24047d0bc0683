//! Generated pushes, from a fixed seed so that a run can be made again.

use crate::queue::Queue;

/// George Marsaglia's xorshift with 64 bits.
pub struct Xorshift(u64);

impl Xorshift {
    pub const FIXED: Self = Self(0x2545_F491_4F6C_DD1D);

    pub fn next(&mut self) -> u64 {
        self.0 ^= self.0 << 13;
        self.0 ^= self.0 >> 7;
        self.0 ^= self.0 << 17;
        self.0
    }

    /// Below `n`, which is above 0.
    pub fn below(&mut self, n: usize) -> usize {
        (self.next() % n as u64) as usize
    }

    pub fn fill(&mut self, bytes: &mut [u8]) {
        bytes.fill_with(|| self.next() as u8);
    }

    pub fn pick<T: Copy>(&mut self, from: &[T]) -> T {
        from[self.below(from.len())]
    }
}

pub struct Push {
    functional: bool,
    to: u32,
    sid: u8,
    says: Says,
}

enum Says {
    Positive(Vec<u8>),
    Negative(u8),
}

/// Short, any up to 300, or around the longest that fits.
fn length(rng: &mut Xorshift) -> usize {
    match rng.below(3) {
        0 => rng.below(8),
        1 => rng.below(301),
        _ => 253 + rng.below(5),
    }
}

/// Every second negative code is one of the five that may be withheld.
fn code(rng: &mut Xorshift) -> u8 {
    match rng.below(2) {
        0 => rng.pick(&[0x11, 0x12, 0x31, 0x7E, 0x7F]),
        _ => rng.next() as u8,
    }
}

impl Push {
    pub fn any(rng: &mut Xorshift) -> Self {
        let says = if rng.below(3) == 0 {
            Says::Negative(code(rng))
        } else {
            let mut payload = vec![0; length(rng)];
            rng.fill(&mut payload);
            Says::Positive(payload)
        };
        Self {
            functional: rng.below(2) == 0,
            to: rng.next() as u32,
            sid: rng.next() as u8,
            says,
        }
    }

    pub fn on<Q: Queue>(&self, queue: &mut Q) -> u8 {
        match &self.says {
            Says::Positive(payload) => queue.confirm(self.functional, self.to, self.sid, payload),
            Says::Negative(code) => queue.refuse(self.functional, self.to, self.sid, *code),
        }
    }
}
