//! Time per operation.

use std::hint::black_box;
use std::time::Instant;

use crate::cases::Case;

const RUNS: u32 = 500;

/// A case on a queue that is made ready for it. Nothing is cleared between operations.
pub struct Bench<Q> {
    case: Case<Q>,
    queue: Box<Q>,
    out: Vec<u8>,
    rounds: Vec<f64>,
}

impl<Q> Bench<Q> {
    pub fn new(case: Case<Q>) -> Self {
        let queue = Box::new((case.made)());
        let out = vec![0; case.lent];
        Self {
            case,
            queue,
            out,
            rounds: Vec::new(),
        }
    }

    pub fn repeat(&mut self, times: u32) {
        for _ in 0..times {
            (black_box(self.case.run))(black_box(&mut self.queue), black_box(&mut self.out));
        }
    }

    /// The mean of one round, in ns.
    pub fn round(&mut self) {
        let start = Instant::now();
        self.repeat(RUNS);
        let mean = start.elapsed().as_nanos() as f64 / f64::from(RUNS);
        self.rounds.push(mean);
    }

    /// The median of the rounds; they begin anew.
    pub fn median(&mut self) -> f64 {
        let mut rounds = std::mem::take(&mut self.rounds);
        rounds.sort_unstable_by(f64::total_cmp);
        rounds[rounds.len() / 2]
    }
}
