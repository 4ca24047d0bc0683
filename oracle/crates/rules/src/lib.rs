//! The product's rules as a server of their own, written from the rules and not from the published Rust.
//!
//! It says which branches of the rules a call goes through, and is a second opinion: on the domain of
//! equality it must answer as the published server does.

mod branches;
mod case;
mod data;
mod fourteen;
mod periodic;
mod security;
mod tick;
mod trace_branches;

use form::numbers::{self, MAX_TIME};
use form::{Answer, Config, Engine, Outcome, Request, Server, Values};

pub use branches::Hits;
pub use trace_branches::note_trace;

use case::Case;

#[derive(Default)]
pub struct Rules {
    pub hits: Hits,
}

impl Rules {
    /// 10 comes first in every call, then 6.
    fn refused(&mut self, call: &str, s: &Server, time: u64) -> Option<u8> {
        if let Some(fault) = fault(s) {
            self.hits.hit(&format!("result 10: {fault}"));
            self.hits.hit(&format!("result 10: {call}"));
            if time > MAX_TIME {
                self.hits.hit("order: 10 before 6");
            }
            return Some(10);
        }
        if time == MAX_TIME {
            self.hits.hit(&format!("time 2^48: {call}"));
        }
        if time > MAX_TIME {
            self.hits.hit(&format!("result 6: {call}"));
            return Some(6);
        }
        None
    }

    /// A call refused early that a later test would have refused too, or let pass.
    fn note_order(&mut self, result: u8, later: &[(&str, bool)]) {
        for (test, _) in later.iter().filter(|(_, there)| *there) {
            self.hits.hit(&format!("order: {result} before {test}"));
        }
    }

    fn at_limits(&mut self, c: &Config) {
        let limits = [
            ("8 sessions", c.sessions.len() == numbers::MAX_SESSIONS),
            ("24 services", c.services.len() == numbers::MAX_SERVICES),
            (
                "128 identifiers",
                c.identifiers.len() == numbers::MAX_IDENTIFIERS,
            ),
            ("8 levels", c.levels.len() == numbers::MAX_LEVELS),
            (
                "list of 8",
                c.services.iter().any(|s| s.sessions.len() == 8),
            ),
            (
                "span 2^32 - 1",
                c.sessions.iter().any(|s| s.s3 == numbers::MAX_SPAN - 1),
            ),
            ("seed of 32", c.levels.iter().any(|l| l.seed == 32)),
            ("key of 32", c.levels.iter().any(|l| l.key == 32)),
            ("no row at all", *c == Config::default()),
        ];
        for (name, _) in limits.iter().filter(|(_, there)| *there) {
            self.hits.hit(&format!("fresh: {name}"));
        }
    }
}

fn fault(s: &Server) -> Option<&'static str> {
    numbers::config_fault(&s.config)
        .map(|_| "configuration")
        .or(numbers::state_fault(&s.state))
}

impl Engine for Rules {
    fn fresh(&mut self, config: &Config) -> (u8, Server) {
        if let Some(fault) = numbers::config_fault(config) {
            self.hits.hit(&format!("result 7: {fault}"));
            return (7, Server::fresh(Config::default()));
        }
        self.at_limits(config);
        (0, Server::fresh(config.clone()))
    }

    fn request(&mut self, s: &mut Server, v: &Values, r: &Request, o: &Outcome) -> Answer {
        if let Some(result) = self.refused("request", s, r.time) {
            let own = [s.config.physical, s.config.functional].map(u32::from);
            let ours = own.contains(&r.dst);
            let busy = ours && s.state.pending.is_some();
            self.note_order(result, &[("the address", !ours), ("busy", busy)]);
            return Answer::of(result);
        }
        let mut case = Case::new(s, v, r, o, &mut self.hits);
        let result = case.request();
        Answer {
            result,
            error: 0,
            act: case.act,
        }
    }

    fn question(&mut self, s: &Server, v: &Values, r: &Request) -> Answer {
        if let Some(result) = self.refused("question", s, r.time) {
            return Answer::of(result);
        }
        let outcome = Outcome {
            error: 0x22,
            bytes: Vec::new(),
        };
        // Asked aside: the branches of a request are not counted for a question.
        let mut aside = Hits::default();
        let mut server = s.clone();
        let mut case = Case::new(&mut server, v, r, &outcome, &mut aside);
        let result = if case.request() == 2 { 2 } else { 0 };
        let act = case.act;
        self.hits.hit(&format!("question: act {:02X}", act.number));
        self.hits.hit(&format!("question: result {result}"));
        Answer {
            result,
            error: 0,
            act,
        }
    }

    fn tick(&mut self, s: &mut Server, v: &Values, time: u64) -> Answer {
        match self.refused("tick", s, time) {
            Some(result) => Answer::of(result),
            None => tick::tick(s, v, time, &mut self.hits),
        }
    }

    fn complete(&mut self, s: &mut Server, time: u64, bytes: &[u8]) -> Answer {
        match self.refused("complete", s, time) {
            Some(result) => {
                self.note_order(result, &[("1", s.state.pending.is_none())]);
                Answer::of(result)
            }
            None => Answer::of(tick::complete(s, bytes, &mut self.hits)),
        }
    }

    fn fail(&mut self, s: &mut Server, time: u64, code: u8) -> Answer {
        match self.refused("fail", s, time) {
            Some(result) => {
                self.note_order(result, &[("1", s.state.pending.is_none())]);
                Answer::of(result)
            }
            None => Answer::of(tick::fail(s, code, &mut self.hits)),
        }
    }

    fn drain(&mut self, s: &mut Server, buffer: &mut [u8]) -> (u8, usize) {
        match self.refused("drain", s, 0) {
            Some(result) => {
                let short = numbers::records(&s.state.queue).len() > buffer.len();
                self.note_order(result, &[("5", short)]);
                (result, 0)
            }
            None => tick::drain(s, buffer, &mut self.hits),
        }
    }
}
