//! What the three queues have in common, and what is lent to them.

pub const PLACES: usize = 16;
pub const MAX_FRAME: usize = 256;

/// Sixteen places, a seventeenth for a reply in the making, and a byte.
pub type Room = [u8; 4353];

/// Destination and length of each frame that waits.
pub type Heads = [u32; 32];

/// Answers by number: 0 done, 3 sixteen wait, 5 the buffer is too small, 10 the queue is not valid.
pub trait Queue {
    const NAME: &str;

    fn new() -> Self;

    /// A positive reply.
    fn confirm(&mut self, functional: bool, to: u32, sid: u8, payload: &[u8]) -> u8;

    /// A negative reply, withheld after a functional request for some codes.
    fn refuse(&mut self, functional: bool, to: u32, sid: u8, code: u8) -> u8;

    /// The waiting frames as records; the result, and how many frames were written.
    fn drain(&mut self, out: &mut [u8]) -> (u8, u8);
}

/// A queue that lies in plain arrays, so that it can be put in any state and read back.
#[derive(Clone)]
pub struct Arrays {
    pub count: u8,
    pub heads: Heads,
    pub room: Room,
}

impl Arrays {
    pub const EMPTY: Self = Self {
        count: 0,
        heads: [0; 32],
        room: [0; 4353],
    };

    /// The frames that are seen. A length above a place's shows that place; the heads tell how long it claims to be.
    pub fn frames(&self) -> Vec<(u32, Vec<u8>)> {
        let heads = self.heads.chunks_exact(2).take(usize::from(self.count));
        let places = self.room.chunks_exact(MAX_FRAME);
        heads
            .zip(places)
            .map(|(head, place)| (head[0], place[..MAX_FRAME.min(head[1] as usize)].to_vec()))
            .collect()
    }

    /// At most sixteen frames of 1 to 256 bytes.
    pub fn is_valid(&self) -> bool {
        let n = usize::from(self.count);
        let longest = MAX_FRAME as u32;
        n <= PLACES
            && self.heads[..2 * n]
                .chunks_exact(2)
                .all(|head| (1..=longest).contains(&head[1]))
    }

    /// How many bytes the records of a valid queue take.
    pub fn records_length(&self) -> usize {
        self.heads[..2 * usize::from(self.count)]
            .chunks_exact(2)
            .map(|head| 8 + head[1] as usize)
            .sum()
    }
}
