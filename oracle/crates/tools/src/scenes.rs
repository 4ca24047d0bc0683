//! Short runs of lines that set one rule's stage: chance alone comes too seldom to these places.

use form::parse::Line;
use form::{Entry, IdentifierRow, Outcome, Pending, Request, ValueRow};

use crate::scripts::Maker;
use crate::states::LATEST;
use crate::{frames, states};

const CLIENT: u32 = 3712;

impl Maker {
    pub fn scene(&mut self) {
        match self.rng.below(9) {
            0 => self.key_at_a_lock(),
            1 => self.full_table(),
            2 => self.due_values(),
            3 => self.latest_time(),
            4 => self.held_level(),
            5 => self.busy(),
            6 => self.session_without_a_row(),
            7 => self.reads_up_to_the_limit(),
            _ => self.second_seed(),
        }
    }

    fn either_address(&mut self) -> u32 {
        let c = &self.player.server.config;
        let (physical, functional) = (u32::from(c.physical), u32::from(c.functional));
        self.rng.pick(&[physical, functional])
    }

    fn ask(&mut self, time: u64, frame: Vec<u8>, outcome: Outcome) {
        let dst = self.either_address();
        let r = Request {
            time,
            src: CLIENT,
            dst,
            frame,
        };
        if self.rng.chance(15) {
            self.add(Line::Question(r.clone()));
        }
        self.add(Line::Request(r, outcome));
    }

    fn outcome(&mut self, refused: usize) -> Outcome {
        let error = if self.rng.chance(refused) {
            self.rng.pick(&[0x35, 0x78, 0x11, 1])
        } else {
            0
        };
        Outcome {
            error,
            bytes: vec![],
        }
    }

    /// Stands in a session and at a level, with the last frame just received.
    fn stand(&mut self, session: u8, level: u8) {
        let functional = self.player.server.state.functional;
        self.add(Line::State {
            session,
            level,
            last_rx: self.now,
            functional,
        });
    }

    /// A key for a pending seed, its lock ending about now and its count at an edge.
    fn key_at_a_lock(&mut self) {
        let levels = self.player.server.config.levels.clone();
        let level = levels.first().map_or(3, |row| row.level);
        let key = levels.first().map_or(4, |row| row.key).min(32) as usize;
        let s = &self.player.server.state;
        let (count_room, lock_room) = (s.counts.len() < 8, s.locks.len() < 8);
        if count_room && self.rng.chance(50) {
            let count = self.rng.pick(&[0, 1, 2, 254, 255]);
            self.add(Line::Count(level, count));
        }
        if lock_room && self.rng.chance(60) {
            self.add(Line::Lock(level, self.now));
        }
        let bytes = self.rng.bytes(4);
        self.add(Line::Seed(level, bytes));
        let time = (self.now + self.rng.pick(&[0, 0, 1, 2])).saturating_sub(1);
        let kind = level.wrapping_add(1);
        let frame = [vec![0x27, kind], self.rng.bytes(key)].concat();
        let outcome = self.outcome(65);
        self.ask(time, frame, outcome);
    }

    /// A seed asked for while another is pending, right and wrong in length.
    fn second_seed(&mut self) {
        let Some(row) = self.player.server.config.levels.first().cloned() else {
            return;
        };
        let held = self.rng.bytes(4);
        self.add(Line::Seed(row.level, held));
        let right = row.seed.min(32) as usize;
        let length = self.rng.pick(&[right, right, right + 1, 0, 33, 257]);
        let error = if self.rng.chance(25) {
            self.rng.pick(&[0x78, 0x22])
        } else {
            0
        };
        let outcome = Outcome {
            error,
            bytes: self.rng.bytes(length),
        };
        self.ask(self.now, vec![0x27, row.level & 0x7F], outcome);
    }

    fn readable_f2(&self) -> Vec<IdentifierRow> {
        let session = self.player.server.state.session;
        let rows = self.player.server.config.identifiers.iter();
        rows.filter(|r| r.id >> 8 == 0xF2 && r.readable.contains(&session))
            .cloned()
            .collect()
    }

    /// Fills the table to its last place or the one before, then asks for one more or two.
    fn full_table(&mut self) {
        let full = self.rng.pick(&[15, 16]);
        for low in self.player.server.state.periodic.len()..full {
            let (id, next) = (0xF280 | low as u16, self.now + 50);
            self.add(Line::Periodic(Entry {
                id,
                client: 7,
                interval: 50,
                next,
            }));
        }
        let ids: Vec<u8> = self.readable_f2().iter().map(|r| r.id as u8).collect();
        if ids.is_empty() {
            return;
        }
        let mode = self.rng.pick(&[1, 2, 3]);
        let frame = vec![0x2A, mode, self.rng.pick(&ids), self.rng.pick(&ids)];
        let outcome = self.outcome(0);
        self.ask(self.now, frame, outcome);
    }

    /// Subscriptions that are due, with values around the limit of a frame, and a queue about to be full.
    fn due_values(&mut self) {
        self.add(Line::Values);
        let pool = self.rng.bytes(256);
        self.add(Line::Pool(pool));
        let room = 16 - self.player.server.state.periodic.len();
        for low in 0..self.rng.pick(&[1, 2, 3]).min(room) {
            let id = 0xF2A0 | low as u16;
            let error = if self.rng.chance(15) {
                self.rng.pick(&[0x22, 0x78])
            } else {
                0
            };
            let length = self.rng.pick(&[0, 1, 254, 255, 255, 256]);
            self.add(Line::Row(ValueRow {
                id,
                error,
                start: 0,
                length,
            }));
            let next = (self.now + self.rng.pick(&[0, 0, 1, 2])).saturating_sub(1);
            let interval = self.rng.pick(&[50, 500]);
            self.add(Line::Periodic(Entry {
                id,
                client: 9,
                interval,
                next,
            }));
        }
        for _ in self.player.server.state.queue.len()..self.rng.pick(&[0, 13, 14, 15, 16]) {
            self.add(Line::Queued(1, vec![1]));
        }
        self.add(Line::Tick(self.now));
    }

    /// Every call at the latest time that is taken and one past it.
    fn latest_time(&mut self) {
        if self.rng.chance(70) {
            let deadline = self.rng.pick(&[LATEST - 1, LATEST, LATEST + 1]);
            self.add(Line::Pending(Pending {
                dst: CLIENT,
                sid: 0x31,
                deadline,
            }));
        }
        let time = self.rng.pick(&[LATEST, LATEST, LATEST + 1]);
        let frame = frames::frame(&mut self.rng, &self.player.server);
        let r = Request {
            time,
            src: CLIENT,
            dst: self.either_address(),
            frame,
        };
        let line = match self.rng.below(5) {
            0 => Line::Request(r, self.outcome(20)),
            1 => Line::Question(r),
            2 => Line::Tick(time),
            3 => Line::Complete(time, vec![1]),
            _ => Line::Fail(time, 0x22),
        };
        self.add(line);
    }

    /// A read or a write of an identifier at its own level, one below and one above.
    fn held_level(&mut self) {
        let Some(row) = self.player.server.config.identifiers.first().cloned() else {
            return;
        };
        let lists = [&row.readable[..], &row.writable].concat();
        let session = lists.first().copied().unwrap_or(1);
        let (below, above) = (row.level.saturating_sub(1), row.level.saturating_add(1));
        let held = self.rng.pick(&[row.level, row.level, below, above]);
        self.stand(session, held);
        self.one_value(row.id);
        let id = row.id.to_be_bytes().to_vec();
        let frame = match self.rng.below(4) {
            0 => [vec![0x2E], id, vec![1]].concat(),
            1 => [vec![0x22], id.clone(), id].concat(),
            _ => [vec![0x22], id].concat(),
        };
        let outcome = frames::outcome(&mut self.rng, &self.player.server, &frame);
        self.ask(self.now, frame, outcome);
    }

    /// A value table of one row, with a length around what a reply can carry.
    fn one_value(&mut self, id: u16) {
        self.add(Line::Values);
        let pool = self.rng.bytes(256);
        self.add(Line::Pool(pool));
        let faulty = self.rng.chance(25);
        let error = if faulty {
            self.rng.pick(&[0x78, 0x78, 0x7E, 0xFF])
        } else {
            0
        };
        let lengths = [0, 1, 125, 126, 252, 253, 254, 255, 256, 257];
        let length = self.rng.pick(&lengths);
        let start = 0;
        self.add(Line::Row(ValueRow {
            id,
            error,
            start,
            length,
        }));
    }

    /// A first value that nearly fills the reply, then identifiers that cross the limit, read or fail.
    fn reads_up_to_the_limit(&mut self) {
        let rows = &self.player.server.config.identifiers;
        let Some(session) = rows.first().and_then(|row| row.readable.first().copied()) else {
            return;
        };
        let readable = rows.iter().filter(|row| row.readable.contains(&session));
        let ids: Vec<u16> = readable.map(|row| row.id).collect();
        self.stand(session, 255);
        let first = ids[0];
        let length = self.rng.pick(&[250, 251, 252, 253, 254]);
        self.add(Line::Values);
        let pool = self.rng.bytes(256);
        self.add(Line::Pool(pool));
        self.add(Line::Row(ValueRow {
            id: first,
            error: 0,
            start: 1,
            length,
        }));
        let second = self.rng.pick(&ids);
        let error = self.rng.pick(&[0, 0, 0x31, 0x78]);
        self.add(Line::Row(ValueRow {
            id: second,
            error,
            start: 0,
            length: 1,
        }));
        let third = self.rng.pick(&[second, first, 0xFFFE]);
        let frame = [first, second, third].map(u16::to_be_bytes).concat();
        let outcome = self.outcome(0);
        self.ask(self.now, [vec![0x22], frame].concat(), outcome);
    }

    /// A slow act in a session that services name and that has no row: the default P2* serves.
    fn session_without_a_row(&mut self) {
        let c = &self.player.server.config;
        let Some(row) = c.services.iter().find(|row| row.sid == 0x31) else {
            return;
        };
        let rowless = |kind: &&u8| !c.sessions.iter().any(|s| s.kind == **kind);
        let Some(session) = row.sessions.iter().find(rowless).copied() else {
            return;
        };
        self.stand(session, 0);
        let outcome = Outcome {
            error: 0x78,
            bytes: vec![],
        };
        self.ask(self.now, vec![0x31, 1, 2, 3], outcome);
    }

    /// A second request while one is pending, of every length that is answered otherwise when none is.
    fn busy(&mut self) {
        let client = states::client(&mut self.rng);
        self.add(Line::Pending(Pending {
            dst: client,
            sid: 0x31,
            deadline: self.now,
        }));
        let frame = match self.rng.below(5) {
            0 => vec![],
            1 => vec![0x22; 4096],
            2 => vec![0x3E],
            3 => vec![0x27, 0],
            _ => frames::frame(&mut self.rng, &self.player.server),
        };
        let outcome = self.outcome(20);
        self.ask(self.now, frame, outcome);
    }
}
