//! Reading and writing identifiers.

use form::IdentifierRow;
use form::numbers::MAX_FRAME;

use crate::case::Case;

impl Case<'_> {
    /// The first row of an identifier.
    pub fn identifier(&self, id: u16) -> Option<&IdentifierRow> {
        self.s.config.identifiers.iter().find(|row| row.id == id)
    }

    /// Whether the row of an identifier is there, in the session's list and within the held level; else the code.
    fn allowed(&mut self, id: u16, list: impl Fn(&IdentifierRow) -> &[u8]) -> Result<(), u8> {
        let (session, held) = (self.s.state.session, self.s.state.level);
        let Some(row) = self.identifier(id).cloned() else {
            self.mark("no row");
            return Err(0x31);
        };
        let same = |row: &&IdentifierRow| row.id == id;
        if self.s.config.identifiers.iter().filter(same).count() > 1 {
            self.mark("first of two rows");
        }
        if !list(&row).contains(&session) {
            self.mark("not in this session");
            if row.level > held {
                self.mark("31 before 33");
            }
            return Err(0x31);
        }
        if row.level > 0 && held < row.level {
            self.mark("level not held");
            return Err(0x33);
        }
        if row.level > 0 {
            self.mark_either(held == row.level, "level held", "higher level held");
        }
        Ok(())
    }

    pub fn read(&mut self) -> u8 {
        let p = self.payload();
        if p.len() < 2 || p.len() % 2 != 0 {
            self.mark_either(p.len() < 2, "less than two", "odd");
            return self.short();
        }
        let mut reply = Vec::new();
        for (nth, pair) in p.chunks(2).enumerate() {
            if let Err(result) = self.read_one(nth, [pair[0], pair[1]], &mut reply) {
                return result;
            }
        }
        if p.len() > 2 {
            self.mark("several identifiers");
        }
        self.positive(&reply)
    }

    /// Adds an identifier and its value to the reply, or gives the result of the refusal.
    fn read_one(&mut self, nth: usize, pair: [u8; 2], reply: &mut Vec<u8>) -> Result<(), u8> {
        let id = u16::from_be_bytes(pair);
        if let Err(code) = self.allowed(id, |row| &row.readable) {
            self.later(nth);
            return Err(self.negative(code));
        }
        reply.extend_from_slice(&pair);
        if reply.len() > MAX_FRAME {
            self.mark("identifier past 256");
            if self.v.read(id).is_err() {
                self.mark("14 before the value's error");
            }
            return Err(self.negative(0x14));
        }
        self.note_value(id);
        match self.v.read(id) {
            Err(code) => {
                self.later(nth);
                return Err(self.error(code));
            }
            Ok(bytes) => reply.extend_from_slice(bytes),
        }
        if reply.len() > MAX_FRAME {
            self.mark("value past 256");
            if self.payload().len() > 2 * nth + 2 {
                self.mark("14 before the next identifier");
            }
            return Err(self.negative(0x14));
        }
        Ok(())
    }

    fn later(&mut self, nth: usize) {
        if nth > 0 {
            self.mark("refused after a good one");
        }
    }

    /// Which of the ways a value can be there or not was met.
    pub fn note_value(&mut self, id: u16) {
        note_value(self.hits, self.v, id);
    }

    pub fn write(&mut self) -> u8 {
        let p = self.payload();
        if p.len() < 3 {
            return self.short();
        }
        let id = u16::from_be_bytes([p[0], p[1]]);
        if let Err(code) = self.allowed(id, |row| &row.writable) {
            return self.negative(code);
        }
        match self.ask(&[(1, 2), (3, p.len() - 2)]) {
            Err(code) => self.error(code),
            Ok(_) => self.positive(&p[..2]),
        }
    }
}

pub fn note_value(hits: &mut crate::Hits, v: &form::Values, id: u16) {
    let mut rows = v.rows.iter().filter(|row| row.id == id);
    let Some(row) = rows.next() else {
        return hits.hit("value: no row");
    };
    if rows.next().is_some() {
        hits.hit("value: first of two rows");
    }
    let (end, pool) = (row.start + row.length, v.pool.len() as u64);
    if row.length > 256 {
        hits.either(
            row.error == 0,
            "value: above 256",
            "value: above 256 with an error",
        );
    } else if end > pool {
        let past = row.length == 0;
        hits.either(
            row.error != 0,
            "value: outside with an error",
            "value: outside the pool",
        );
        if past {
            hits.hit("value: empty past the pool's end");
        }
    } else if row.error != 0 {
        hits.hit("value: error byte");
    } else {
        hits.hit(match row.length {
            0 => "value: empty",
            256 => "value: of 256",
            _ if end == pool => "value: up to the pool's end",
            _ => "value: within the pool",
        });
    }
}
