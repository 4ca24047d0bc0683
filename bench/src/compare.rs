//! The three queues on the same input. Ours and the plain Rust are compared in everything that can be seen of them; the published Rust
//! in the results of pushes, in the frames that wait, and in records and number of frames where the buffer has room for them. What is not
//! compared with it: a drain into a buffer that is too small and a queue that is not valid, since it has no answer to either.

use crate::inputs::{Push, Xorshift};
use crate::ours::Ours;
use crate::plain::Plain;
use crate::published::Published;
use crate::queue::{Arrays, PLACES, Queue};

pub type Verdict = Result<(), String>;

pub fn same<T: PartialEq + std::fmt::Debug>(what: &str, ours: T, other: T) -> Verdict {
    if ours == other {
        return Ok(());
    }
    Err(format!("{what}\n  Rattle: {ours:?}\n  other:  {other:?}"))
}

/// Count, heads and bytes of the frames that are seen. Bytes of a free place are not: nothing reads them.
pub fn same_queue(ours: &Arrays, plain: &Arrays) -> Verdict {
    same("count", ours.count, plain.count)?;
    let heads = 2 * usize::from(ours.count).min(PLACES);
    same("heads", &ours.heads[..heads], &plain.heads[..heads])?;
    same("frames", ours.frames(), plain.frames())
}

/// How long the lent buffer is: exactly full, a byte short, longer, or anything up to that.
fn lent(rng: &mut Xorshift, needed: usize) -> usize {
    match rng.below(4) {
        0 => needed,
        1 => needed.saturating_sub(1),
        2 => needed + 1 + rng.below(40),
        _ => rng.below(needed + 1),
    }
}

/// A run of the comparison: where its input comes from, and how often each result was given.
pub struct Run {
    rng: Xorshift,
    pub seen: [usize; 11],
}

fn drain<Q: Queue>(queue: &mut Q, buffer: &[u8]) -> (u8, u8, Vec<u8>) {
    let mut out = buffer.to_vec();
    let (result, frames) = queue.drain(&mut out);
    (result, frames, out)
}

impl Run {
    fn buffer(&mut self, length: usize) -> Vec<u8> {
        let mut bytes = vec![0; length];
        self.rng.fill(&mut bytes);
        bytes
    }

    /// The same drain twice over, so that one that was refused shows that it changed nothing.
    fn drains(&mut self, ours: &mut Ours, plain: &mut Plain) -> Verdict {
        for _ in 0..2 {
            let needed = if ours.0.is_valid() {
                ours.0.records_length()
            } else {
                self.rng.below(5000)
            };
            let length = lent(&mut self.rng, needed);
            let buffer = self.buffer(length);
            let drained = drain(ours, &buffer);
            self.seen[usize::from(drained.0)] += 1;
            same("drain", drained, drain(plain, &buffer))?;
            same_queue(&ours.0, &plain.0)?;
        }
        Ok(())
    }

    /// The published queue and ours, emptied into a buffer that has room.
    fn emptied(&mut self, ours: &mut Ours, published: &mut Published) -> Verdict {
        let more = self.rng.below(3);
        let buffer = self.buffer(ours.0.records_length() + more);
        same("records", drain(ours, &buffer), drain(published, &buffer))?;
        same("frames left", ours.0.frames(), published.waiting())
    }

    fn push(&mut self, ours: &mut Ours, plain: &mut Plain) -> Result<(Push, u8), String> {
        let push = Push::any(&mut self.rng);
        let result = push.on(ours);
        self.seen[usize::from(result)] += 1;
        same("push", result, push.on(plain))?;
        same_queue(&ours.0, &plain.0)?;
        Ok((push, result))
    }

    /// Up to twenty pushes on queues that begin empty, three times over, so that places are used again.
    fn history(&mut self) -> Verdict {
        let (mut ours, mut plain, mut published) = (Ours::new(), Plain::new(), Published::new());
        for _ in 0..3 {
            for _ in 0..self.rng.below(21) {
                let (push, result) = self.push(&mut ours, &mut plain)?;
                same("published push", result, push.on(&mut published))?;
                same("published queue", ours.0.frames(), published.waiting())?;
            }
            let mut emptied = Ours(ours.0.clone());
            self.emptied(&mut emptied, &mut published)?;
            self.drains(&mut ours, &mut plain)?;
            plain = Plain(emptied.0.clone());
            ours = emptied;
        }
        Ok(())
    }

    /// Any count, any heads, any bytes, valid or not.
    fn arbitrary(&mut self) -> Arrays {
        let rng = &mut self.rng;
        let mut queue = Arrays::EMPTY;
        rng.fill(&mut queue.room);
        queue.count = match rng.below(3) {
            0 => rng.next() as u8,
            _ => rng.below(18) as u8,
        };
        for head in queue.heads.chunks_exact_mut(2) {
            head[0] = rng.next() as u32;
            head[1] = 1 + rng.below(256) as u32;
        }
        if rng.below(3) == 0 {
            let wrong = [0, 257, 1 << 16, rng.next() as u32];
            queue.heads[2 * rng.below(16) + 1] = rng.pick(&wrong);
        }
        queue
    }

    /// A queue that no push made, drained as it is and after some pushes.
    fn handed_in(&mut self) -> Verdict {
        let queue = self.arbitrary();
        self.drains(&mut Ours(queue.clone()), &mut Plain(queue.clone()))?;
        let (mut ours, mut plain) = (Ours(queue.clone()), Plain(queue));
        for _ in 0..self.rng.below(4) {
            self.push(&mut ours, &mut plain)?;
        }
        self.drains(&mut ours, &mut plain)
    }
}

/// So many histories and so many handed-in queues; the first difference with its number.
pub fn all(count: usize) -> Result<Run, String> {
    let mut run = Run {
        rng: Xorshift::FIXED,
        seen: [0; 11],
    };
    for i in 0..count {
        run.history().map_err(|e| format!("history {i}: {e}"))?;
        run.handed_in()
            .map_err(|e| format!("handed-in queue {i}: {e}"))?;
    }
    for result in [0, 3, 5, 10] {
        if run.seen[result] == 0 {
            return Err(format!("the input: result {result} was never given"));
        }
    }
    Ok(run)
}
