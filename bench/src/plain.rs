//! The same queue in plain Rust: the same arrays, safe code, written as one writes Rust.

use crate::queue::{Arrays, MAX_FRAME, PLACES, Queue};

const RESPONSE_TOO_LONG: u8 = 0x14;
const WITHHELD: [u8; 5] = [0x11, 0x12, 0x31, 0x7E, 0x7F];

pub struct Plain(pub Arrays);

/// A frame in two parts, of at most 256 bytes in all.
fn push(queue: &mut Arrays, to: u32, first: &[u8], rest: &[u8]) -> u8 {
    let n = usize::from(queue.count);
    if n >= PLACES {
        return 3;
    }
    let place = &mut queue.room[MAX_FRAME * n..][..MAX_FRAME];
    let (start, after) = place.split_at_mut(first.len());
    start.copy_from_slice(first);
    after[..rest.len()].copy_from_slice(rest);
    queue.heads[2 * n] = to;
    queue.heads[2 * n + 1] = (first.len() + rest.len()) as u32;
    queue.count += 1;
    0
}

/// One record at the front of a buffer that has room for it; the buffer's rest.
pub fn write_record<'a>(out: &'a mut [u8], to: u32, frame: &[u8]) -> &'a mut [u8] {
    let (record, rest) = out.split_at_mut(8 + frame.len());
    record[..2].copy_from_slice(&(4 + frame.len() as u16).to_le_bytes());
    record[2..4].copy_from_slice(&1u16.to_le_bytes());
    record[4..8].copy_from_slice(&to.to_le_bytes());
    record[8..].copy_from_slice(frame);
    rest
}

impl Queue for Plain {
    const NAME: &str = "plain Rust";

    fn new() -> Self {
        Self(Arrays::EMPTY)
    }

    #[inline(never)]
    fn confirm(&mut self, functional: bool, to: u32, sid: u8, payload: &[u8]) -> u8 {
        if payload.len() < MAX_FRAME {
            push(&mut self.0, to, &[sid | 0x40], payload)
        } else {
            self.refuse(functional, to, sid, RESPONSE_TOO_LONG)
        }
    }

    #[inline(never)]
    fn refuse(&mut self, functional: bool, to: u32, sid: u8, code: u8) -> u8 {
        if functional && WITHHELD.contains(&code) {
            return 0;
        }
        push(&mut self.0, to, &[0x7F, sid, code], &[])
    }

    #[inline(never)]
    fn drain(&mut self, mut out: &mut [u8]) -> (u8, u8) {
        let queue = &mut self.0;
        if !queue.is_valid() {
            return (10, 0);
        }
        if out.len() < queue.records_length() {
            return (5, 0);
        }
        let heads = queue.heads.chunks_exact(2).take(usize::from(queue.count));
        for (head, place) in heads.zip(queue.room.chunks_exact(MAX_FRAME)) {
            out = write_record(out, head[0], &place[..head[1] as usize]);
        }
        (0, std::mem::take(&mut queue.count))
    }
}
