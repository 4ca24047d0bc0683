//! Subscriptions.

use form::Entry;
use form::numbers::MAX_PERIODIC;

use crate::case::Case;

impl Case<'_> {
    pub fn periodic(&mut self) -> u8 {
        let p = self.payload();
        let Some(mode) = p.first() else {
            return self.short();
        };
        let rate = match mode {
            1 => 2000,
            2 => 500,
            3 => 50,
            4 => return self.cancel(&p[1..]),
            _ => {
                self.mark_either(mode & 0x80 == 0, "other mode", "mode with bit 7");
                return self.negative(0x12);
            }
        };
        self.mark(&format!("mode {mode}"));
        if p.len() == 1 {
            self.mark("no identifier");
        }
        for (nth, low) in p[1..].iter().enumerate() {
            if let Err(result) = self.register(0xF200 | u16::from(*low), rate, nth) {
                return result;
            }
        }
        self.positive(&p[..1])
    }

    fn register(&mut self, id: u16, rate: u64, nth: usize) -> Result<(), u8> {
        let session = self.s.state.session;
        let row = self
            .identifier(id)
            .filter(|row| row.readable.contains(&session))
            .cloned();
        let Some(row) = row else {
            self.mark_either(nth > 0, "unreadable after a good one", "unreadable");
            if self.s.state.periodic.len() == MAX_PERIODIC {
                self.mark("unreadable before a full table");
            }
            return Err(self.negative(0x31));
        };
        if row.level > self.s.state.level {
            self.mark("level is not tested");
        }
        if row.minimum > rate {
            self.mark("minimum above the rate");
        }
        self.subscribe(id, rate.max(row.minimum))
    }

    /// Renews the entry of the same identifier and client, else takes a free place.
    fn subscribe(&mut self, id: u16, interval: u64) -> Result<(), u8> {
        let (client, next) = (self.r.src, self.r.time + interval);
        let functional = self.s.state.functional;
        let entries = &mut self.s.state.periodic;
        let mut old = entries.iter_mut();
        if let Some(old) = old.find(|e| e.id == id && e.client == client) {
            (old.interval, old.next) = (interval, next);
            self.mark("renewed");
            return Ok(());
        }
        if entries.len() == MAX_PERIODIC {
            self.mark_either(functional, "table full, functional", "table full, physical");
            return Err(self.negative_always(0x31));
        }
        entries.push(Entry {
            id,
            client,
            interval,
            next,
        });
        self.mark("registered");
        Ok(())
    }

    fn cancel(&mut self, ids: &[u8]) -> u8 {
        self.mark("mode 4");
        let client = self.r.src;
        for low in ids {
            let id = 0xF200 | u16::from(*low);
            let entries = &mut self.s.state.periodic;
            let others = entries.iter().any(|e| e.id == id && e.client != client);
            let before = entries.len();
            entries.retain(|e| !(e.id == id && e.client == client));
            let gone = before != entries.len();
            self.mark_either(gone, "cancelled", "nothing to cancel");
            if others {
                self.mark("another client's stays");
            }
        }
        self.positive(&[4])
    }
}
