//! A call, what it is made on, and what must be seen after it: plain words, from which either server is made ready.

use crate::state::held::Held;

/// When every call is made.
pub const T: u64 = 10_000;

/// Room for the longest records of sixteen frames.
pub const LENT: usize = 16 * (8 + 256);

/// A frame that waits or was drained: to whom, and its bytes.
pub type Frame = (u32, Vec<u8>);

#[derive(Clone, Copy)]
pub enum Kind {
    Request,
    Question,
    Tick,
    Complete,
    Fail,
    Drain,
}

#[derive(Clone)]
pub struct Call {
    pub name: String,
    pub kind: Kind,
    pub held: Held,
    /// Rows of identifier, error, start and length, over the pool.
    pub values: Vec<u32>,
    pub pool: Vec<u8>,
    pub src: u32,
    pub dst: u32,
    pub frame: Vec<u8>,
    /// The outcome of the act that a request may ask, or the answer of one that is pending: an error, or bytes.
    pub err: u8,
    pub given: Vec<u8>,
    pub after: After,
}

/// A service byte, 0 for none, and the parts of the frame that are its arguments, by start and length.
#[derive(Clone, Debug, Default, PartialEq)]
pub struct Act {
    pub number: u8,
    pub parts: Vec<(usize, usize)>,
}

#[derive(Clone, Debug, PartialEq)]
pub struct After {
    pub result: u8,
    /// The error byte that comes with result 8.
    pub err: u8,
    pub session: u8,
    pub level: u8,
    /// How many bytes of a seed await their key.
    pub seed: usize,
    /// Whom to answer, for which service, and when 78 is due again.
    pub pending: Option<(u32, u8, u64)>,
    /// Identifier, client, interval, next.
    pub subscriptions: Vec<[u64; 4]>,
    pub waiting: Vec<Frame>,
    pub drained: Vec<Frame>,
    /// What a question answers; none after all other calls.
    pub act: Act,
}

impl After {
    /// All that is held, with result 0.
    pub fn of(held: &Held) -> Self {
        let (session, pending) = (held.state.session, held.state.pending);
        let rows = held.subscriptions.as_chunks().0;
        Self {
            result: 0,
            err: 0,
            session: session.session_type,
            level: session.level,
            seed: held.security[0] as usize,
            pending: pending
                .on
                .then_some((pending.dst, pending.sid, pending.deadline)),
            subscriptions: rows[..usize::from(held.state.subscriptions)].to_vec(),
            waiting: held.queue().frames(),
            drained: vec![],
            act: Act::default(),
        }
    }
}

/// A server on which a call can be made again and again.
pub trait Side: Sized {
    const NAME: &str;

    fn new(call: Call) -> Self;

    /// What the last call changed is as it was before it. Not measured.
    fn ready(&mut self);

    /// What is measured: the function that makes a call of this kind, where the server has one.
    fn run(kind: Kind) -> Option<fn(&mut Self, &mut [u8])>;

    fn after(&self, out: &[u8]) -> After;
}

/// The frames of so many records.
pub fn records(mut out: &[u8], count: usize) -> Vec<Frame> {
    let mut frames = vec![];
    for _ in 0..count {
        let length = usize::from(u16::from_le_bytes([out[0], out[1]]));
        let to = u32::from_le_bytes([out[4], out[5], out[6], out[7]]);
        let (record, rest) = out.split_at(4 + length);
        frames.push((to, record[8..].to_vec()));
        out = rest;
    }
    frames
}
