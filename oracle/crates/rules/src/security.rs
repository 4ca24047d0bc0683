//! Seeds and keys.

use form::LevelRow;
use form::numbers::{MAX_LEVELS, MAX_SEED};

use crate::case::Case;

impl Case<'_> {
    pub fn security_access(&mut self) -> u8 {
        let Some(first) = self.payload().first() else {
            return self.short();
        };
        self.suppressed();
        match first & 0x7F {
            0 => {
                self.mark("access type 0");
                self.negative(0x12)
            }
            kind if kind % 2 == 1 => self.seed(kind),
            kind => self.key(kind),
        }
    }

    /// now < until of the first lock for the level.
    fn locked(&mut self, level: u8) -> bool {
        let until = self
            .s
            .state
            .locks
            .iter()
            .find(|(l, _)| *l == level)
            .map(|(_, t)| *t);
        let Some(until) = until else {
            return false;
        };
        self.mark(match self.r.time {
            t if t + 1 == until => "locked, a moment before the end",
            t if t < until => "locked",
            t if t == until => "lock ends at this moment",
            _ => "lock ended before",
        });
        self.r.time < until
    }

    fn level_row(&self, level: u8) -> Option<LevelRow> {
        self.s
            .config
            .levels
            .iter()
            .find(|row| row.level == level)
            .cloned()
    }

    fn clear_seed(&mut self) {
        self.s.state.seed.clear();
        self.s.state.seed_level = 0;
    }

    fn seed(&mut self, level: u8) -> u8 {
        if self.locked(level) {
            if self.level_row(level).is_none() {
                self.mark("lock before unknown level");
            }
            return self.negative(0x37);
        }
        let Some(row) = self.level_row(level) else {
            self.mark("unknown level");
            return self.negative(0x12);
        };
        let held = !self.s.state.seed.is_empty();
        let Ok(seed) = self.ask(&[(1, 1)]) else {
            self.mark_either(held, "provider error keeps the seed", "provider error");
            return self.negative(0x22);
        };
        if seed.len() as u64 != row.seed {
            self.mark_either(
                held,
                "wrong seed length clears the seed",
                "wrong seed length",
            );
            self.clear_seed();
            return self.negative(0x22);
        }
        if seed.len() == MAX_SEED {
            self.mark("seed of 32");
            self.clear_seed();
            return self.negative(0x14);
        }
        self.mark(match seed.len() {
            0 => "seed of no bytes",
            31 => "seed of 31",
            _ => "seed",
        });
        self.s.state.seed = seed.to_vec();
        self.s.state.seed_level = level;
        self.positive(&[&[level], seed].concat())
    }

    fn key(&mut self, kind: u8) -> u8 {
        let level = kind - 1;
        let key = self.payload().len() - 1;
        let row = self.level_row(level);
        let other = self.s.state.seed_level != level;
        let unasked = other || self.s.state.seed.is_empty();
        if self.locked(level) {
            self.mark_either(unasked, "lock before sequence", "lock before the key");
            return self.negative(0x37);
        }
        if unasked {
            self.mark_either(other, "level not pending", "seed empty");
            if row.is_some_and(|row| row.key != key as u64) {
                self.mark("sequence before key length");
            }
            return self.negative(0x24);
        }
        match &row {
            Some(row) if key as u64 != row.key => {
                self.mark_either((key as u64) < row.key, "key too short", "key too long");
                return self.negative(0x13);
            }
            Some(_) => self.mark("key of the right length"),
            None => self.mark("key for a level with no row"),
        }
        if self.ask(&[(1, 1), (2, key)]).is_err() {
            return self.refuse_key(level, row);
        }
        let counted = self.s.state.counts.iter_mut().find(|(l, _)| *l == level);
        let there = counted.map(|c| c.1 = 0).is_some();
        self.mark_either(there, "accepted, count to 0", "accepted, no count");
        self.s.state.level = level;
        self.clear_seed();
        self.positive(&[kind])
    }

    fn refuse_key(&mut self, level: u8, row: Option<LevelRow>) -> u8 {
        self.clear_seed();
        let Some(count) = self.count_up(level) else {
            self.mark("no room for a count");
            return self.negative(0x22);
        };
        let (attempts, span) = row.map_or((3, 10_000), |row| (row.attempts, row.lockout));
        if count < attempts {
            self.mark("refused");
            return self.negative(0x35);
        }
        let until = self.r.time + span;
        let locks = &mut self.s.state.locks;
        if let Some(lock) = locks.iter_mut().find(|(l, _)| *l == level) {
            lock.1 = until;
            self.mark("locked again");
        } else if locks.len() == MAX_LEVELS {
            self.mark("no room for a lock");
            return self.negative(0x22);
        } else {
            locks.push((level, until));
            self.mark("locked first");
        }
        self.negative(0x36)
    }

    /// The raised count, or none where the list lacks room.
    fn count_up(&mut self, level: u8) -> Option<u8> {
        let counts = &mut self.s.state.counts;
        if let Some(entry) = counts.iter_mut().find(|(l, _)| *l == level) {
            let full = entry.1 == 255;
            entry.1 = entry.1.saturating_add(1);
            let count = entry.1;
            self.mark_either(full, "count stays at 255", "count up");
            return Some(count);
        }
        if counts.len() == MAX_LEVELS {
            return None;
        }
        counts.push((level, 1));
        self.mark("count made");
        Some(1)
    }
}
