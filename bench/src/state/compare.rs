//! Validity and effects on generated states: the proved functions and the plain Rust must agree, and a state that was made valid must be
//! so, as one with a number past its edge must not.

use super::edges::EDGES;
use super::held::{Asked, Effect, Held, Pending, Reply, Session, State};
use super::{config, ours, plain};
use crate::compare::{Verdict, same, same_queue};
use crate::inputs::Xorshift;

/// What was met: states valid with a number at its edge, states not valid for one number alone, and results.
pub struct Run {
    rng: Xorshift,
    pub at: [usize; EDGES.len()],
    pub past: [usize; EDGES.len()],
    pub results: [usize; 4],
}

/// Any words and numbers, in rows that are looked at and in those that are not.
fn any(rng: &mut Xorshift) -> Held {
    let mut h = Held::fresh(config::fixed());
    h.config.fill_with(|| rng.next() as u32);
    h.security.fill_with(|| rng.next());
    h.subscriptions.fill_with(|| rng.next());
    h.heads.fill_with(|| rng.next() as u32);
    rng.fill(&mut h.room);
    h.state = State {
        session: Session {
            last_rx: 0,
            session_type: rng.next() as u8,
            level: rng.next() as u8,
        },
        pending: Pending {
            deadline: rng.next(),
            dst: rng.next() as u32,
            sid: rng.next() as u8,
            on: rng.below(2) == 0,
        },
        functional: rng.below(2) == 0,
        subscriptions: 0,
        frames: 0,
    };
    h
}

/// Every number that is looked at is kept: at its edge, at its least, or anywhere between.
fn valid(rng: &mut Xorshift) -> Held {
    let mut h = any(rng);
    for edge in &EDGES {
        for row in 0..(edge.rows)(&h) {
            let least = u64::from(edge.past.contains(&0));
            let n = match rng.below(4) {
                0 => edge.last,
                1 => least,
                _ => least + rng.next() % edge.last,
            };
            (edge.put)(&mut h, row, n);
        }
    }
    h
}

impl Run {
    /// One number or two put past their edges; which one, where it was one alone.
    fn spoil(&mut self, h: &mut Held) -> Option<usize> {
        let rng = &mut self.rng;
        let mut alone = None;
        for _ in 0..1 + rng.below(2) {
            let i = rng.below(EDGES.len());
            let edge = &EDGES[i];
            let rows = (edge.rows)(h);
            if rows > 0 {
                let (row, n) = (rng.below(rows), rng.pick(&edge.past));
                (edge.put)(h, row, n);
                alone = Some(i);
            }
        }
        let one_past = |i: &usize| {
            let others = EDGES.iter().enumerate().filter(|(j, _)| j != i);
            others.into_iter().all(|(_, edge)| {
                (0..(edge.rows)(h)).all(|row| !edge.past.contains(&(edge.get)(h, row)))
            })
        };
        alone.filter(one_past)
    }

    fn validity(&mut self) -> Verdict {
        let mut h = valid(&mut self.rng);
        if self.rng.below(2) == 0 {
            same("a valid state", ours::is_valid(&h), true)?;
            same("validity", true, plain::is_valid(&h))?;
            for (at, edge) in self.at.iter_mut().zip(&EDGES) {
                *at += usize::from((0..(edge.rows)(&h)).any(|i| (edge.get)(&h, i) == edge.last));
            }
            return Ok(());
        }
        if let Some(i) = self.spoil(&mut h) {
            same(EDGES[i].name, ours::is_valid(&h), false)?;
            self.past[i] += 1;
        }
        same("validity", ours::is_valid(&h), plain::is_valid(&h))
    }

    fn effect(&mut self) -> (Asked, Effect) {
        let rng = &mut self.rng;
        let any = rng.next();
        let n = any as u8;
        let reply = match rng.below(6) {
            0 => Reply::Silent,
            1 => Reply::Negative(rng.pick(&[0x11, 0x12, 0x31, 0x7E, 0x7F, n])),
            2 => Reply::Always(n),
            3 => Reply::Pends,
            _ => Reply::Positive(n),
        };
        let asked = Asked {
            to: rng.next() as u32,
            sid: rng.next() as u8,
            t: rng.pick(&[0, 1 << 48, u64::MAX, u64::MAX - 5000, any]),
            functional: rng.below(2) == 0,
        };
        let e = Effect {
            reply,
            session: rng.pick(&[1, 3, n]),
            level: rng.next() as u8,
            subscriptions: rng.next() as u8,
            waits: rng.below(2) == 0,
            clears_seed: rng.below(2) == 0,
        };
        (asked, e)
    }

    /// An effect on a valid state, or on one with any number of frames and any heads.
    fn carried(&mut self) -> Verdict {
        let mut h = valid(&mut self.rng);
        if self.rng.below(4) == 0 {
            h.state.frames = self.rng.next() as u8;
        }
        if self.rng.below(2) == 0 {
            h.config = config::fixed();
        }
        let (asked, e) = self.effect();
        let (mut a, mut b) = (h.clone(), h);
        let answer = ours::apply(&mut a, asked, e);
        a.state = answer.state;
        self.results[usize::from(answer.result).min(3)] += 1;
        same("result", answer.result, plain::apply(&mut b, asked, e))?;
        same("state", a.state, b.state)?;
        same("security", a.security, b.security)?;
        same_queue(&a.queue(), &b.queue())
    }
}

/// So many states and so many effects; the first difference with its number.
pub fn all(count: usize) -> Result<Run, String> {
    let mut run = Run {
        rng: Xorshift::FIXED,
        at: [0; EDGES.len()],
        past: [0; EDGES.len()],
        results: [0; 4],
    };
    for i in 0..count {
        run.validity().map_err(|e| format!("state {i}: {e}"))?;
        run.carried().map_err(|e| format!("effect {i}: {e}"))?;
    }
    for ((edge, at), past) in EDGES.iter().zip(run.at).zip(run.past) {
        if at == 0 || past == 0 {
            return Err(format!(
                "the input: {} was never at or past its edge",
                edge.name
            ));
        }
    }
    if run.results[0] == 0 || run.results[3] == 0 {
        return Err(String::from("the input: result 0 or 3 was never given"));
    }
    Ok(run)
}
