//! Reads and sets the private state of the published server, and reaches its own private helpers where the
//! driver has to answer a frame that the server's validation turns away.

use super::*;

/// The server with the numbers of the milk meter: frame, outbox, sessions, services, identifiers, security
/// levels, the five defaults (S3, P2, P2*, lockout, attempts), seed, periodic entries.
pub type Meter<H, S> = UdsServer<256, 16, 8, 24, 128, 8, 5000, 50, 5000, 10000, 3, 32, 16, H, S>;

pub type MeterConfig = ServerConfig<8, 24, 128, 8>;

/// Everything in the server that a call can change. Times and spans are microseconds, as in the server.
#[derive(Debug, Clone, PartialEq, Eq)]
pub struct Snapshot {
    pub session: u8,
    pub level: u8,
    pub last_rx: u64,
    pub functional: bool,
    pub pending: Option<(u32, u8, u64)>,
    pub seed: std::vec::Vec<u8>,
    pub seed_level: u8,
    pub counts: std::vec::Vec<(u8, u8)>,
    pub locks: std::vec::Vec<(u8, u64)>,
    /// Identifier, client, interval, next.
    pub periodic: std::vec::Vec<(u16, u32, u64, u64)>,
    pub queue: std::vec::Vec<(u32, std::vec::Vec<u8>)>,
}

fn bounded<T: Clone, const N: usize>(items: &[T]) -> Vec<T, N> {
    let mut all = Vec::new();
    all.extend_from_slice(items)
        .expect("a snapshot keeps the capacities");
    all
}

pub fn snapshot<H: ServerHandler, S: SecurityProvider>(server: &Meter<H, S>) -> Snapshot {
    let entries = server.periodic.entries.iter();
    let pending = server.pending.as_ref();
    Snapshot {
        session: server.session.session_type,
        level: server.session.security_level,
        last_rx: server.session.last_rx.as_micros(),
        functional: server.inbound == AddressMode::Functional,
        pending: pending.map(|p| (p.dst.0, p.sid, p.deadline.as_micros())),
        seed: server.security.pending_seed.to_vec(),
        seed_level: server.security.pending_level,
        counts: server.security.failed_attempts.to_vec(),
        locks: server
            .security
            .lockout_until
            .iter()
            .map(|(l, t)| (*l, t.as_micros()))
            .collect(),
        periodic: entries
            .map(|e| {
                (
                    e.did,
                    e.client.0,
                    e.interval.as_micros(),
                    e.next_tx.as_micros(),
                )
            })
            .collect(),
        queue: server
            .outbox
            .iter()
            .map(|(dst, frame)| (dst.0, frame.to_vec()))
            .collect(),
    }
}

pub fn restore<H: ServerHandler, S: SecurityProvider>(server: &mut Meter<H, S>, to: &Snapshot) {
    server.session = SessionState {
        session_type: to.session,
        last_rx: Instant::from_micros(to.last_rx),
        security_level: to.level,
    };
    address(server, to.functional);
    server.pending = to.pending.map(|(dst, sid, deadline)| PendingRequest {
        dst: NodeAddress(dst),
        sid,
        deadline: Instant::from_micros(deadline),
    });
    let locks: std::vec::Vec<_> = to
        .locks
        .iter()
        .map(|(l, t)| (*l, Instant::from_micros(*t)))
        .collect();
    server.security = SecurityState {
        pending_seed: bounded(&to.seed),
        pending_level: to.seed_level,
        failed_attempts: bounded(&to.counts),
        lockout_until: bounded(&locks),
    };
    let entries: std::vec::Vec<_> = to.periodic.iter().map(entry).collect();
    server.periodic = PeriodicState {
        entries: bounded(&entries),
    };
    let queue: std::vec::Vec<_> = to
        .queue
        .iter()
        .map(|(dst, frame)| (NodeAddress(*dst), bounded(frame)))
        .collect();
    server.outbox = bounded(&queue);
}

/// How the request at hand was addressed, which decides what a refusal withholds.
pub fn address<H: ServerHandler, S: SecurityProvider>(
    server: &mut Meter<H, S>,
    functional: bool,
) {
    server.inbound = if functional {
        AddressMode::Functional
    } else {
        AddressMode::Physical
    };
}

fn entry(of: &(u16, u32, u64, u64)) -> PeriodicEntry {
    PeriodicEntry {
        did: of.0,
        client: NodeAddress(of.1),
        interval: Duration::from_micros(of.2),
        next_tx: Instant::from_micros(of.3),
    }
}

/// The service and session tests that the server makes before a service rule.
pub fn guard<H: ServerHandler, S: SecurityProvider>(
    server: &Meter<H, S>,
    sid: u8,
) -> Result<(), u8> {
    server.guard_service(sid)
}

/// A negative response, dropped after a functional request where the server drops it.
pub fn refuse<H: ServerHandler, S: SecurityProvider>(
    server: &mut Meter<H, S>,
    to: &NodeAddress,
    sid: u8,
    code: u8,
    now: Instant,
) -> Result<(), ServerError<H::Error>> {
    server.nrc_raw(to, sid, code, now)
}

/// A positive response.
pub fn reply<H: ServerHandler, S: SecurityProvider>(
    server: &mut Meter<H, S>,
    to: &NodeAddress,
    sid: u8,
    payload: &[u8],
    now: Instant,
) -> Result<(), ServerError<H::Error>> {
    server.pos(to, sid, payload, now)
}
