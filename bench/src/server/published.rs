//! The published server, made ready from the same words. What it lacks of a call of ours is left out: it tests neither its state nor a buffer.

use ace_core::clock::{Duration, Instant};
use ace_core::io::{InboundFrame, NodeAddress};
use ace_server::config::{DidConfig, SecurityLevelConfig, ServiceConfig, SessionConfig};
use ace_server::handler::ServerHandler;
use ace_server::nrc::{BuiltinNrc, NrcError};
use ace_server::security_provider::{SecurityError, SecurityProvider};
use ace_server::server::access::{self, Meter, MeterConfig, Snapshot};
use ace_server::server::{ServerError, UdsServer};

use super::call::{Act, After, Call, Kind, Side, T, records};
use crate::plain::write_record;
use crate::state::held::{Config, Held};

type Done = Result<(), ServerError<BuiltinNrc>>;

/// The application: it looks an identifier up in the rows that ours is lent, and gives a handed-in seed.
#[derive(Clone)]
struct Hooks {
    values: Vec<u32>,
    pool: Vec<u8>,
    given: Vec<u8>,
}

impl ServerHandler for Hooks {
    type Error = BuiltinNrc;

    fn read_did(&self, did: u16, buf: &mut [u8]) -> Result<usize, BuiltinNrc> {
        let mut rows = self.values.chunks_exact(4);
        let row = rows
            .find(|row| row[0] == u32::from(did))
            .ok_or_else(BuiltinNrc::conditions_not_correct)?;
        let bytes = &self.pool[row[2] as usize..][..row[3] as usize];
        buf[..bytes.len()].copy_from_slice(bytes);
        Ok(bytes.len())
    }

    fn write_did(&mut self, _: u16, _: &[u8]) -> Result<(), BuiltinNrc> {
        Ok(())
    }

    fn ecu_reset(&mut self, _: u8) -> Result<(), BuiltinNrc> {
        Ok(())
    }
}

impl SecurityProvider for Hooks {
    fn generate_seed(&mut self, _: u8, buf: &mut [u8]) -> Result<usize, SecurityError> {
        buf[..self.given.len()].copy_from_slice(&self.given);
        Ok(self.given.len())
    }

    fn validate_key(&self, _: u8, _: &[u8], _: &[u8]) -> Result<(), SecurityError> {
        Ok(())
    }
}

/// The rows of a configuration borrow their lists for ever.
fn list(words: &[u32]) -> &'static [u8] {
    let sessions = &words[1..][..words[0] as usize];
    Vec::leak(sessions.iter().map(|x| *x as u8).collect())
}

fn span(ms: u32) -> Duration {
    Duration::from_millis(u64::from(ms))
}

fn built(w: &Config) -> MeterConfig {
    let rows =
        |from: usize, step, count: usize| w[from..].chunks_exact(step).take(w[count] as usize);
    let mut config = MeterConfig::new(w[0] as u16, w[1] as u16);
    for r in rows(6, 4, 2) {
        config = config.with_session(SessionConfig {
            session_type: r[0] as u8,
            p2_timeout: span(r[1]),
            p2_extended_timeout: span(r[2]),
            s3_timeout: span(r[3]),
        });
    }
    for r in rows(38, 10, 3) {
        config = config.with_service(ServiceConfig::new(r[0] as u8, list(&r[1..])));
    }
    for r in rows(278, 21, 4) {
        let did = DidConfig::read_write(r[0] as u16, list(&r[3..]), list(&r[12..]));
        config = config.with_did(did.secured(r[1] as u8).periodic(span(r[2])));
    }
    for r in rows(2966, 5, 5) {
        config = config.with_security_level(SecurityLevelConfig {
            level: r[0] as u8,
            max_attempts: r[1] as u8,
            lockout_duration: span(r[2]),
            seed_length: r[3] as usize,
            key_length: r[4] as usize,
        });
    }
    config
}

fn snapshot(h: &Held) -> Snapshot {
    let (s, k) = (&h.state, &h.security);
    let pending = s.pending;
    let pairs = |from: usize, count: usize| k[from..].chunks_exact(2).take(k[count] as usize);
    let subscriptions = h.subscriptions.chunks_exact(4);
    Snapshot {
        session: s.session.session_type,
        level: s.session.level,
        last_rx: s.session.last_rx * 1000,
        functional: s.functional,
        pending: pending
            .on
            .then_some((pending.dst, pending.sid, pending.deadline * 1000)),
        seed: k[4..][..k[0] as usize].iter().map(|x| *x as u8).collect(),
        seed_level: k[1] as u8,
        counts: pairs(36, 2).map(|p| (p[0] as u8, p[1] as u8)).collect(),
        locks: pairs(52, 3).map(|p| (p[0] as u8, p[1] * 1000)).collect(),
        periodic: subscriptions
            .take(usize::from(s.subscriptions))
            .map(|e| (e[0] as u16, e[1] as u32, e[2] * 1000, e[3] * 1000))
            .collect(),
        queue: h.queue().frames(),
    }
}

pub struct Published {
    call: Call,
    before: Snapshot,
    server: Meter<Hooks, Hooks>,
    result: u8,
    /// Kept from drain to drain, as a caller would keep it.
    frames: ace_core::Vec<(NodeAddress, ace_core::Vec<u8, 256>), 16>,
    drained: usize,
}

fn number(done: Done) -> u8 {
    match done {
        Ok(()) => 0,
        Err(ServerError::NoPendingRequest) => 1,
        Err(ServerError::Codec(_)) => 2,
        Err(ServerError::OutboxFull) => 3,
        Err(ServerError::ResponseTooLong) => 4,
        Err(ServerError::Handler(_)) => 8,
    }
}

fn at() -> Instant {
    Instant::from_micros(T * 1000)
}

// Valgrind counts what these take, by their names.
#[inline(never)]
#[unsafe(no_mangle)]
extern "C" fn bench_published_request(p: &mut Published) {
    let frame = InboundFrame {
        src: NodeAddress(p.call.src),
        dst: NodeAddress(p.call.dst),
        data: &p.call.frame,
    };
    p.result = number(p.server.handle(&frame, at()));
}

#[inline(never)]
#[unsafe(no_mangle)]
extern "C" fn bench_published_tick(p: &mut Published) {
    p.result = number(p.server.tick(at()));
}

#[inline(never)]
#[unsafe(no_mangle)]
extern "C" fn bench_published_complete(p: &mut Published) {
    p.result = number(p.server.complete_pending(&p.call.given, at()));
}

#[inline(never)]
#[unsafe(no_mangle)]
extern "C" fn bench_published_fail(p: &mut Published) {
    // 22, the code of every failing call.
    let code = BuiltinNrc::conditions_not_correct();
    p.result = number(p.server.fail_pending(code, at()));
}

#[inline(never)]
#[unsafe(no_mangle)]
extern "C" fn bench_published_drain(p: &mut Published, out: *mut u8, length: usize) {
    p.frames.clear();
    p.drained = p.server.drain_outbox(&mut p.frames).expect("sixteen fit");
    // SAFETY: the pointer and the length are the slice that `run` was lent.
    let mut out = unsafe { std::slice::from_raw_parts_mut(out, length) };
    for (to, frame) in &p.frames {
        out = write_record(out, to.0, frame);
    }
}

impl Side for Published {
    const NAME: &str = "published Rust";

    fn new(call: Call) -> Self {
        let hooks = Hooks {
            values: call.values.clone(),
            pool: call.pool.clone(),
            given: call.given.clone(),
        };
        let config = built(&call.held.config);
        let address = NodeAddress(call.held.config[0]);
        let mut new = Self {
            before: snapshot(&call.held),
            server: UdsServer::new(config, hooks.clone(), hooks, address),
            call,
            result: 0,
            frames: ace_core::Vec::new(),
            drained: 0,
        };
        new.ready();
        new
    }

    fn ready(&mut self) {
        access::restore(&mut self.server, &self.before);
    }

    fn run(kind: Kind) -> Option<fn(&mut Self, &mut [u8])> {
        Some(match kind {
            Kind::Request => |p, _| bench_published_request(p),
            Kind::Question => return None,
            Kind::Tick => |p, _| bench_published_tick(p),
            Kind::Complete => |p, _| bench_published_complete(p),
            Kind::Fail => |p, _| bench_published_fail(p),
            Kind::Drain => |p, out| bench_published_drain(p, out.as_mut_ptr(), out.len()),
        })
    }

    fn after(&self, out: &[u8]) -> After {
        let s = access::snapshot(&self.server);
        After {
            result: self.result,
            // No call here meets 8.
            err: 0,
            session: s.session,
            level: s.level,
            seed: s.seed.len(),
            pending: s.pending.map(|(dst, sid, at)| (dst, sid, at / 1000)),
            subscriptions: s
                .periodic
                .iter()
                .map(|(id, client, interval, next)| {
                    [
                        u64::from(*id),
                        u64::from(*client),
                        interval / 1000,
                        next / 1000,
                    ]
                })
                .collect(),
            waiting: s.queue,
            drained: records(out, self.drained),
            act: Act::default(),
        }
    }
}
