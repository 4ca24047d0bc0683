//! One request: the order of its tests, and the ways to answer it.

use form::numbers::{MAX_FRAME, MAX_INBOUND, MAX_QUEUE};
use form::trace::FOURTEEN;
use form::{Act, Outcome, Pending, Request, Server, SessionRow, Values};

use crate::branches::Hits;

/// Codes that say "not here" and are dropped after a functional request.
const WITHHELD: [u8; 5] = [0x11, 0x12, 0x31, 0x7E, 0x7F];

pub struct Case<'a> {
    pub s: &'a mut Server,
    pub v: &'a Values,
    pub r: &'a Request,
    pub o: &'a Outcome,
    pub hits: &'a mut Hits,
    pub act: Act,
}

/// Queues a frame; 3 where sixteen wait.
pub fn push(s: &mut Server, dst: u32, frame: Vec<u8>) -> u8 {
    if s.state.queue.len() == MAX_QUEUE {
        return 3;
    }
    s.state.queue.push((dst, frame));
    0
}

/// P2* of the session, or the default where it has no row.
pub fn p2_star(s: &Server) -> u64 {
    session(s, s.state.session).map_or(5000, |row| row.p2_star)
}

pub fn session(s: &Server, kind: u8) -> Option<&SessionRow> {
    s.config.sessions.iter().find(|row| row.kind == kind)
}

impl<'a> Case<'a> {
    pub fn new(
        s: &'a mut Server,
        v: &'a Values,
        r: &'a Request,
        o: &'a Outcome,
        hits: &'a mut Hits,
    ) -> Self {
        Self {
            s,
            v,
            r,
            o,
            hits,
            act: Act::default(),
        }
    }

    pub fn hit(&mut self, name: &str) {
        self.hits.hit(name);
    }

    /// A branch of the service asked, named after its byte.
    pub fn mark(&mut self, name: &str) {
        let sid = self.sid();
        self.hits.hit(&format!("{sid:02X} {name}"));
    }

    pub fn mark_either(&mut self, first: bool, one: &str, other: &str) {
        self.mark(if first { one } else { other });
    }

    pub fn sid(&self) -> u8 {
        self.r.frame[0]
    }

    pub fn payload(&self) -> &'a [u8] {
        &self.r.frame[1..]
    }

    /// Bit 7 of the first payload byte.
    pub fn suppressed(&mut self) -> bool {
        let set = self.payload().first().is_some_and(|b| b & 0x80 != 0);
        self.mark_either(set, "suppress bit set", "suppress bit clear");
        if set && self.s.state.queue.len() == MAX_QUEUE && self.sid() != 0x27 {
            self.mark("suppressed with a full queue");
        }
        set
    }

    /// Address, last_rx, busy, length, service, session, then the service's own rule.
    pub fn request(&mut self) -> u8 {
        let (dst, c) = (self.r.dst, &self.s.config);
        let functional = dst != u32::from(c.physical);
        if functional && dst != u32::from(c.functional) {
            self.hit("address: foreign");
            if self.r.frame.is_empty() || self.r.frame.len() > MAX_INBOUND {
                self.hit("order: address before 2");
            }
            return 0;
        }
        let back = self.r.time < self.s.state.last_rx;
        self.hits
            .either(functional, "address: functional", "address: physical");
        if !functional && c_same(self.s) {
            self.hit("address: both are one, so physical");
        }
        if back {
            self.hit("last_rx: the clock went back");
        }
        self.s.state.functional = functional;
        self.s.state.last_rx = self.r.time;
        if self.s.state.pending.is_some() {
            return self.busy();
        }
        let length = self.r.frame.len();
        if length == 0 || length > MAX_INBOUND {
            self.hits
                .either(length == 0, "result 2: empty", "result 2: above 4095");
            return 2;
        }
        if length == MAX_INBOUND {
            self.hit("frame of 4095");
        }
        self.service()
    }

    fn busy(&mut self) -> u8 {
        let length = self.r.frame.len();
        self.hit("busy");
        for (name, there) in [
            ("busy: functional", self.s.state.functional),
            ("busy: empty frame", length == 0),
            ("busy: above 4095", length > MAX_INBOUND),
            ("busy: queue full", self.s.state.queue.len() == MAX_QUEUE),
        ] {
            if there {
                self.hit(name);
            }
        }
        let first = self.r.frame.first().copied().unwrap_or(0);
        push(self.s, self.r.dst, vec![0x7F, first, 0x21])
    }

    fn service(&mut self) -> u8 {
        let sid = self.sid();
        let session = self.s.state.session;
        let mut rows = self.s.config.services.iter().filter(|row| row.sid == sid);
        let allowed = rows.next().map(|row| row.sessions.contains(&session));
        let second = rows.next().is_some();
        if second {
            self.hit("service: first of two rows");
        }
        let known = FOURTEEN.contains(&sid);
        match allowed {
            None => {
                self.hits
                    .either(known, "service: no row", "service: unknown byte");
                self.negative(0x11)
            }
            Some(false) => {
                self.hit("service: not in this session");
                self.negative(0x7F)
            }
            Some(true) if !known => {
                self.hit("service: configured outside the fourteen");
                self.negative(0x11)
            }
            Some(true) => {
                let mode = if self.s.state.functional {
                    "functional"
                } else {
                    "physical"
                };
                self.mark(mode);
                self.rule()
            }
        }
    }

    fn rule(&mut self) -> u8 {
        match self.sid() {
            0x3E => self.tester_present(),
            0x10 => self.session_control(),
            0x11 => self.reset(),
            0x27 => self.security_access(),
            0x22 => self.read(),
            0x2E => self.write(),
            0x2A => self.periodic(),
            0x31 => self.routine(),
            0x28 => self.communication(),
            0x2F => self.control(),
            0x34 => self.download(),
            0x36 => self.transfer(),
            0x37 => self.exit(),
            _ => self.file(),
        }
    }

    /// The service with bit 6 set, then the payload; above 256 in all it becomes 0x14.
    pub fn positive(&mut self, payload: &[u8]) -> u8 {
        let length = payload.len() + 1;
        if length >= MAX_FRAME {
            self.mark_either(length == MAX_FRAME, "reply of 256", "reply above 256");
        }
        if length > MAX_FRAME {
            return self.negative(0x14);
        }
        self.mark("positive");
        let result = push(self.s, self.r.src, [&[self.sid() | 0x40], payload].concat());
        if result == 3 {
            self.hit("result 3: positive");
            self.mark("reply meets a full queue");
        }
        result
    }

    pub fn short(&mut self) -> u8 {
        self.mark("short");
        self.negative(0x13)
    }

    /// Dropped after a functional request where the code is one of the five.
    pub fn negative(&mut self, code: u8) -> u8 {
        if self.s.state.functional {
            if WITHHELD.contains(&code) {
                self.hit(&format!("functional: {code:02X} dropped"));
                if self.s.state.queue.len() == MAX_QUEUE {
                    self.hit("functional: dropped with a full queue");
                }
                return 0;
            }
            self.hit("functional: another code sent");
        }
        self.negative_always(code)
    }

    pub fn negative_always(&mut self, code: u8) -> u8 {
        let sid = self.sid();
        let result = push(self.s, self.r.src, vec![0x7F, sid, code]);
        if result == 3 {
            self.hit("result 3: negative");
        }
        result
    }

    /// An error byte from a value or from an act: sent as it is, and 0x78 first makes the request pending.
    pub fn error(&mut self, code: u8) -> u8 {
        if code != 0x78 {
            self.mark("error byte");
            return self.negative(code);
        }
        self.mark("error 78");
        if session(self.s, self.s.state.session).is_none() {
            self.hit("pending: default P2*");
        }
        let deadline = self.r.time + p2_star(self.s);
        let (dst, sid) = (self.r.src, self.sid());
        self.s.state.pending = Some(Pending { dst, sid, deadline });
        let result = push(self.s, dst, vec![0x7F, sid, 0x78]);
        if result == 3 {
            self.hit("result 3: first 78");
        }
        result
    }

    /// Asks the act of this service and gives its outcome.
    pub fn ask(&mut self, places: &[(usize, usize)]) -> Result<&'a [u8], u8> {
        let number = self.sid();
        let whole = |(start, length): &(usize, usize)| {
            if *length == 0 {
                (0, 0)
            } else {
                (*start, *length)
            }
        };
        self.act = Act {
            number,
            places: places.iter().map(whole).collect(),
        };
        self.mark("act");
        let (outcome, limit) = (self.o, if number == 0x34 { 64 } else { 256 });
        let long = outcome.bytes.len() > limit;
        if outcome.error != 0 {
            self.hits
                .either(long, "outcome: error and too many bytes", "outcome: error");
            return Err(outcome.error);
        }
        if long {
            self.mark("too many bytes");
            return Err(0x22);
        }
        Ok(&outcome.bytes)
    }
}

fn c_same(s: &Server) -> bool {
    s.config.physical == s.config.functional
}
