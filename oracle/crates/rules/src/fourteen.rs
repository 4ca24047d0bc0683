//! The services that hand one act on and answer with its bytes, and the session services.

use form::SessionRow;

use crate::case::{Case, session};

impl Case<'_> {
    pub fn tester_present(&mut self) -> u8 {
        let first = self.payload().first().copied();
        self.mark_either(first.is_some(), "sub-function", "absent");
        if self.suppressed() {
            return 0;
        }
        self.positive(&[first.unwrap_or(0) & 0x7F])
    }

    pub fn session_control(&mut self) -> u8 {
        let Some(first) = self.payload().first() else {
            return self.short();
        };
        let kind = first & 0x7F;
        let Some(row) = session(self.s, kind).cloned() else {
            self.mark("unknown session");
            return self.negative(0x12);
        };
        let same = |row: &&SessionRow| row.kind == kind;
        if self.s.config.sessions.iter().filter(same).count() > 1 {
            self.mark("first of two rows");
        }
        self.s.state.session = kind;
        self.drop_level();
        if self.suppressed() {
            return 0;
        }
        self.session_reply(&row)
    }

    /// The session, P2 and a tenth of P2*, the low 16 bits of each.
    fn session_reply(&mut self, row: &SessionRow) -> u8 {
        let (p2, star) = (row.p2, row.p2_star / 10);
        if p2 > 0xFFFF {
            self.mark("P2 above 16 bits");
        }
        if star > 0xFFFF {
            self.mark("P2* above 16 bits");
        }
        let (p2, star) = (p2 as u16, star as u16);
        self.positive(&[&[row.kind][..], &p2.to_be_bytes(), &star.to_be_bytes()].concat())
    }

    /// Level 0 and no seed.
    fn drop_level(&mut self) {
        if self.s.state.level != 0 {
            self.mark("level dropped");
        }
        if !self.s.state.seed.is_empty() {
            self.mark("seed cleared");
        }
        self.s.state.level = 0;
        self.s.state.seed.clear();
        self.s.state.seed_level = 0;
    }

    pub fn reset(&mut self) -> u8 {
        let Some(first) = self.payload().first() else {
            return self.short();
        };
        if let Err(code) = self.ask(&[(1, 1)]) {
            return self.error(code);
        }
        if !self.suppressed() {
            let result = self.positive(&[first & 0x7F]);
            if result != 0 {
                self.mark("queue full keeps the session");
                return result;
            }
        }
        self.s.state.session = 1;
        self.drop_level();
        0
    }

    pub fn routine(&mut self) -> u8 {
        let p = self.payload();
        if p.len() < 3 {
            return self.short();
        }
        match self.ask(&[(1, 1), (2, 2), (4, p.len() - 3)]) {
            Err(code) => self.error(code),
            Ok(_) if self.suppressed() => 0,
            Ok(bytes) => self.positive(&[&[p[0] & 0x7F, p[1], p[2]], bytes].concat()),
        }
    }

    pub fn communication(&mut self) -> u8 {
        let p = self.payload();
        if p.len() < 2 {
            return self.short();
        }
        match self.ask(&[(1, 1), (2, 1)]) {
            Err(code) => self.error(code),
            Ok(_) if self.suppressed() => 0,
            Ok(_) => self.positive(&[p[0] & 0x7F]),
        }
    }

    pub fn control(&mut self) -> u8 {
        let p = self.payload();
        if p.len() < 3 {
            return self.short();
        }
        match self.ask(&[(1, 2), (3, 1), (4, p.len() - 3)]) {
            Err(code) => self.error(code),
            Ok(bytes) => self.positive(&[&p[..2], bytes].concat()),
        }
    }

    pub fn download(&mut self) -> u8 {
        let p = self.payload();
        if p.len() < 3 {
            return self.short();
        }
        let (address, size) = (usize::from(p[1] >> 4), usize::from(p[1] & 15));
        if p.len() < 2 + address + size {
            self.mark("lengths do not fit");
            return self.short();
        }
        for (name, there) in [
            ("no address", address == 0),
            ("no size", size == 0),
            ("lengths fit to the byte", p.len() == 2 + address + size),
            ("bytes after the size", p.len() > 2 + address + size),
        ] {
            if there {
                self.mark(name);
            }
        }
        match self.ask(&[(1, 1), (3, address), (3 + address, size)]) {
            Err(code) => self.error(code),
            Ok(bytes) => {
                if bytes.len() == 64 {
                    self.mark("64 bytes");
                }
                self.positive(bytes)
            }
        }
    }

    pub fn transfer(&mut self) -> u8 {
        let p = self.payload();
        if p.is_empty() {
            return self.short();
        }
        match self.ask(&[(1, 1), (2, p.len() - 1)]) {
            Err(code) => self.error(code),
            Ok(bytes) => self.positive(&[&p[..1], bytes].concat()),
        }
    }

    pub fn exit(&mut self) -> u8 {
        let p = self.payload();
        if p.is_empty() {
            self.mark("no payload");
        }
        match self.ask(&[(1, p.len())]) {
            Err(code) => self.error(code),
            Ok(bytes) => self.positive(bytes),
        }
    }

    pub fn file(&mut self) -> u8 {
        let p = self.payload();
        if p.len() < 3 {
            return self.short();
        }
        let wanted = usize::from(p[1]) << 8 | usize::from(p[2]);
        let there = p.len() - 3;
        self.mark(match wanted {
            0 => "path of no bytes",
            n if n > there => "path does not fit",
            n if n == there => "path fits to the byte",
            _ => "bytes after the path",
        });
        match self.ask(&[(1, 1), (4, if wanted > there { 0 } else { wanted })]) {
            Err(code) => self.error(code),
            Ok(bytes) => self.positive(bytes),
        }
    }
}
