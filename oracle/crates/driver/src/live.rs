//! One running published server, built from plain records and read back into them.

use std::collections::HashMap;

use ace_core::clock::{Duration, Instant};
use ace_core::io::NodeAddress;
use ace_server::config::{DidConfig, SecurityLevelConfig, ServiceConfig, SessionConfig};
use ace_server::server::UdsServer;
use ace_server::server::access::{self, Meter, MeterConfig, Snapshot};
use form::{Config, Entry, Pending, Server, State};

use crate::hooks::Hooks;

/// Session lists live as long as the program, since the published rows borrow them for ever.
#[derive(Default)]
pub struct Lists(HashMap<Vec<u8>, &'static [u8]>);

impl Lists {
    fn keep(&mut self, list: &[u8]) -> &'static [u8] {
        self.0
            .entry(list.to_vec())
            .or_insert_with(|| Vec::leak(list.to_vec()))
    }
}

pub struct Live {
    pub meter: Meter<Hooks, Hooks>,
    pub hooks: Hooks,
    config: Config,
    state: State,
}

impl Live {
    /// A server over `config` as its own maker leaves it.
    pub fn new(config: &Config, lists: &mut Lists) -> Self {
        let hooks = Hooks::default();
        let address = NodeAddress(u32::from(config.physical));
        let meter = UdsServer::new(
            published(config, lists),
            hooks.clone(),
            hooks.clone(),
            address,
        );
        let state = plain(&access::snapshot(&meter));
        Self {
            meter,
            hooks,
            config: config.clone(),
            state,
        }
    }

    /// A server in the state handed in.
    pub fn holding(server: &Server, lists: &mut Lists) -> Self {
        let mut live = Self::new(&server.config, lists);
        access::restore(&mut live.meter, &snapshot(&server.state));
        live.state = plain(&access::snapshot(&live.meter));
        assert_eq!(
            live.state, server.state,
            "a state is held as it was handed in"
        );
        live
    }

    /// Whether it already stands where `server` stands, so that it can run on.
    pub fn stands_at(&self, server: &Server) -> bool {
        self.state == server.state && self.config == server.config
    }

    /// The whole state after a call.
    pub fn read(&mut self) -> State {
        self.state = plain(&access::snapshot(&self.meter));
        self.state.clone()
    }
}

pub fn moment(ms: u64) -> Instant {
    Instant::from_micros(ms * 1000)
}

/// Built with the published builders and their debug assertions.
fn published(c: &Config, lists: &mut Lists) -> MeterConfig {
    let mut built = MeterConfig::new(c.physical, c.functional);
    for s in &c.sessions {
        built = built.with_session(SessionConfig {
            session_type: s.kind,
            p2_timeout: Duration::from_millis(s.p2),
            p2_extended_timeout: Duration::from_millis(s.p2_star),
            s3_timeout: Duration::from_millis(s.s3),
        });
    }
    for s in &c.services {
        built = built.with_service(ServiceConfig::secured(
            s.sid,
            lists.keep(&s.sessions),
            s.level,
        ));
    }
    for i in &c.identifiers {
        built = built.with_did(DidConfig {
            identifier: i.id,
            readable_in: lists.keep(&i.readable),
            writable_in: lists.keep(&i.writable),
            security_level: i.level,
            periodic: i.periodic,
            min_periodic_interval: Duration::from_millis(i.minimum),
        });
    }
    for l in &c.levels {
        built = built.with_security_level(SecurityLevelConfig {
            level: l.level,
            max_attempts: l.attempts,
            lockout_duration: Duration::from_millis(l.lockout),
            seed_length: l.seed as usize,
            key_length: l.key as usize,
        });
    }
    built
}

fn snapshot(s: &State) -> Snapshot {
    Snapshot {
        session: s.session,
        level: s.level,
        last_rx: s.last_rx * 1000,
        functional: s.functional,
        pending: s
            .pending
            .as_ref()
            .map(|p| (p.dst, p.sid, p.deadline * 1000)),
        seed: s.seed.clone(),
        seed_level: s.seed_level,
        counts: s.counts.clone(),
        locks: s.locks.iter().map(|(l, t)| (*l, t * 1000)).collect(),
        periodic: s
            .periodic
            .iter()
            .map(|e| (e.id, e.client, e.interval * 1000, e.next * 1000))
            .collect(),
        queue: s.queue.clone(),
    }
}

/// Every moment in the server comes from whole milliseconds; a part of one would be a difference to see.
fn whole(us: u64) -> u64 {
    assert_eq!(
        us % 1000,
        0,
        "{us} microseconds are no whole number of milliseconds"
    );
    us / 1000
}

fn plain(s: &Snapshot) -> State {
    let entry = |e: &(u16, u32, u64, u64)| Entry {
        id: e.0,
        client: e.1,
        interval: whole(e.2),
        next: whole(e.3),
    };
    State {
        session: s.session,
        level: s.level,
        last_rx: whole(s.last_rx),
        functional: s.functional,
        pending: s.pending.map(|(dst, sid, t)| Pending {
            dst,
            sid,
            deadline: whole(t),
        }),
        seed_level: s.seed_level,
        seed: s.seed.clone(),
        counts: s.counts.clone(),
        locks: s.locks.iter().map(|(l, t)| (*l, whole(*t))).collect(),
        periodic: s.periodic.iter().map(entry).collect(),
        queue: s.queue.clone(),
    }
}
