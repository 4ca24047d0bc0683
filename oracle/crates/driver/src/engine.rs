//! The published server as an engine: calls go to it, and what the product's rules add is answered here.

use std::panic::{AssertUnwindSafe, catch_unwind};

use ace_core::Vec as Bounded;
use ace_core::io::{InboundFrame, NodeAddress};
use ace_proto::uds::UdsFrame;
use ace_server::server::{ServerError, access};
use ace_uds::ext::UdsFrameExt;
use form::numbers::{self, MAX_INBOUND, MAX_QUEUE, MAX_TIME};
use form::{Answer, Config, Engine, Outcome, Request, Server, State, Values};

use crate::code::Code;
use crate::hooks::{Desk, Hooks};
use crate::live::{Lists, Live, moment};

/// Result number of a call in which the published server panicked; no rule gives it.
const PANICKED: u8 = 99;

type Meter = access::Meter<Hooks, Hooks>;
type Done = Result<(), ServerError<Code>>;

pub struct Beside {
    straight: bool,
    live: Option<Live>,
    lists: Lists,
}

impl Beside {
    pub fn new(straight: bool) -> Self {
        Self {
            straight,
            live: None,
            lists: Lists::default(),
        }
    }

    /// 10 comes first in every call, then 6.
    fn refused(s: &Server, time: u64) -> Option<Answer> {
        let numbers = [(10, !numbers::valid(s)), (6, time > MAX_TIME)];
        numbers
            .iter()
            .find(|(_, refused)| *refused)
            .map(|(n, _)| Answer::of(*n))
    }

    /// Runs one call on the server, which runs on from its last call unless another state was handed in.
    fn run(&mut self, s: &mut Server, desk: Desk, call: impl FnOnce(&mut Meter) -> Done) -> Answer {
        let mut live = match self.live.take() {
            Some(live) if live.stands_at(s) => live,
            _ => Live::holding(s, &mut self.lists),
        };
        *live.hooks.0.borrow_mut() = desk;
        let Ok(done) = catch_unwind(AssertUnwindSafe(|| call(&mut live.meter))) else {
            return Answer::of(PANICKED);
        };
        let mut asked = std::mem::take(&mut live.hooks.0.borrow_mut().asked);
        assert!(asked.len() <= 1, "a call asks at most one act");
        s.state = live.read();
        self.live = Some(live);
        let (result, error) = result(&done);
        Answer {
            result,
            error,
            act: asked.pop().unwrap_or_default(),
        }
    }
}

fn result(done: &Done) -> (u8, u8) {
    match done {
        Ok(()) => (0, 0),
        Err(ServerError::NoPendingRequest) => (1, 0),
        Err(ServerError::Codec(_)) => (2, 0),
        Err(ServerError::OutboxFull) => (3, 0),
        Err(ServerError::ResponseTooLong) => (4, 0),
        Err(ServerError::Handler(code)) => (8, code.0),
    }
}

/// Whether the rules answer this frame otherwise than the server would. With a request pending none is: the
/// server then answers busy before it looks at the frame.
fn answered_by_rule(meter: &Meter, frame: &[u8]) -> bool {
    let zero_access = || frame[0] == 0x27 && frame[1] & 0x7F == 0;
    let refused = !UdsFrame::from_slice(frame).is_valid();
    let known = !meter.has_pending_request() && !frame.is_empty();
    known && (frame.len() > MAX_INBOUND || refused || zero_access())
}

/// A frame above 4095 bytes, of one byte where the server's validation wants two, with an unknown first byte,
/// or with access type 0. The address test and last_rx are the server's own, by the empty frame.
fn by_rule(meter: &mut Meter, r: &Request) -> Done {
    let (src, now) = (NodeAddress(r.src), moment(r.time));
    let empty = InboundFrame {
        src: src.clone(),
        dst: NodeAddress(r.dst),
        data: &[],
    };
    let accepted = meter.handle(&empty, now);
    if accepted.is_ok() || r.frame.len() > MAX_INBOUND {
        return accepted;
    }
    let sid = r.frame[0];
    if let Err(code) = access::guard(meter, sid) {
        return access::refuse(meter, &src, sid, code, now);
    }
    match sid {
        0x3E => access::reply(meter, &src, sid, &[0], now),
        0x27 if r.frame.len() > 1 => access::refuse(meter, &src, sid, 0x12, now),
        0x10 | 0x11 | 0x27 | 0x28 | 0x31 => access::refuse(meter, &src, sid, 0x13, now),
        _ => access::refuse(meter, &src, sid, 0x11, now),
    }
}

fn ask(meter: &mut Meter, r: &Request, straight: bool) -> Done {
    if !straight && answered_by_rule(meter, &r.frame) {
        return by_rule(meter, r);
    }
    let frame = InboundFrame {
        src: NodeAddress(r.src),
        dst: NodeAddress(r.dst),
        data: &r.frame,
    };
    meter.handle(&frame, moment(r.time))
}

fn twice(s: &State) -> bool {
    let pair = |i: usize| (s.periodic[i].id, s.periodic[i].client);
    (0..s.periodic.len()).any(|i| (0..i).any(|j| pair(i) == pair(j)))
}

/// Where one identifier and client stand twice, the rule advances each entry that was sent by its own
/// interval, while the server advances the first of the two.
fn advance_each(before: &State, after: &mut State, time: u64) {
    let refreshed = before.pending.as_ref().is_some_and(|p| time >= p.deadline)
        && before.queue.len() < MAX_QUEUE;
    let mut sent = after.queue.len() - before.queue.len() - usize::from(refreshed);
    after.periodic = before.periodic.clone();
    for entry in after.periodic.iter_mut().filter(|e| time >= e.next) {
        if sent > 0 {
            entry.next = time + entry.interval;
            sent -= 1;
        }
    }
}

impl Engine for Beside {
    fn fresh(&mut self, config: &Config) -> (u8, Server) {
        if numbers::config_fault(config).is_some() {
            return (7, self.fresh(&Config::default()).1);
        }
        let state = Live::new(config, &mut self.lists).read();
        (
            0,
            Server {
                config: config.clone(),
                state,
            },
        )
    }

    fn request(&mut self, s: &mut Server, v: &Values, r: &Request, o: &Outcome) -> Answer {
        if let Some(answer) = Self::refused(s, r.time) {
            return answer;
        }
        let desk = Desk {
            values: v.clone(),
            outcome: Some(o.clone()),
            frame: r.frame.clone(),
            address: r.frame.as_ptr() as usize,
            seed: s.state.seed.clone(),
            asked: Vec::new(),
        };
        let straight = self.straight;
        self.run(s, desk, |meter| ask(meter, r, straight))
    }

    /// The published server has no question: the request runs on a server built for it and thrown away.
    fn question(&mut self, s: &Server, v: &Values, r: &Request) -> Answer {
        if let Some(answer) = Self::refused(s, r.time) {
            return answer;
        }
        let mut aside = Beside::new(self.straight);
        std::mem::swap(&mut aside.lists, &mut self.lists);
        let outcome = Outcome {
            error: 0x22,
            bytes: Vec::new(),
        };
        let answer = aside.request(&mut s.clone(), v, r, &outcome);
        std::mem::swap(&mut aside.lists, &mut self.lists);
        // A question is refused where its request is, by 2 too; what the reply would meet does not concern it.
        let told = [PANICKED, 2].contains(&answer.result);
        Answer {
            result: if told { answer.result } else { 0 },
            error: 0,
            ..answer
        }
    }

    fn tick(&mut self, s: &mut Server, v: &Values, time: u64) -> Answer {
        if let Some(answer) = Self::refused(s, time) {
            return answer;
        }
        let before = s.state.clone();
        let desk = Desk {
            values: v.clone(),
            ..Desk::default()
        };
        let answer = self.run(s, desk, |meter| meter.tick(moment(time)));
        if !self.straight && twice(&before) {
            advance_each(&before, &mut s.state, time);
        }
        answer
    }

    fn complete(&mut self, s: &mut Server, time: u64, bytes: &[u8]) -> Answer {
        let refused = Self::refused(s, time);
        let call = |meter: &mut Meter| meter.complete_pending(bytes, moment(time));
        refused.unwrap_or_else(|| self.run(s, Desk::default(), call))
    }

    fn fail(&mut self, s: &mut Server, time: u64, code: u8) -> Answer {
        let refused = Self::refused(s, time);
        let call = |meter: &mut Meter| meter.fail_pending(Code(code), moment(time));
        refused.unwrap_or_else(|| self.run(s, Desk::default(), call))
    }

    /// The lent buffer and its records are the product's; the frames and their order are the server's.
    fn drain(&mut self, s: &mut Server, buffer: &mut [u8]) -> (u8, usize) {
        if !numbers::valid(s) {
            return (10, 0);
        }
        if numbers::records(&s.state.queue).len() > buffer.len() {
            return (5, 0);
        }
        let mut out = Bounded::new();
        let mut count = 0;
        let answer = self.run(s, Desk::default(), |meter| {
            count = meter
                .drain_outbox(&mut out)
                .map_err(|_| ServerError::OutboxFull)?;
            Ok(())
        });
        let frames: Vec<_> = out
            .iter()
            .map(|(dst, frame)| (dst.0, frame.to_vec()))
            .collect();
        let written = numbers::records(&frames);
        buffer[..written.len()].copy_from_slice(&written);
        (answer.result, count)
    }
}
