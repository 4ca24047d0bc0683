//! The product's numbers, and which configurations and states keep them.

use crate::types::{Config, Server, State};

pub const MAX_FRAME: usize = 256;
pub const MAX_QUEUE: usize = 16;
pub const MAX_SESSIONS: usize = 8;
pub const MAX_SERVICES: usize = 24;
pub const MAX_IDENTIFIERS: usize = 128;
pub const MAX_LEVELS: usize = 8;
pub const MAX_SEED: usize = 32;
pub const MAX_PERIODIC: usize = 16;
pub const MAX_LIST: usize = 8;
pub const MAX_INBOUND: usize = 4095;
pub const MAX_TIME: u64 = 1 << 48;
pub const MAX_SPAN: u64 = 1 << 32;

/// Which number a configuration breaks, if any.
pub fn config_fault(c: &Config) -> Option<&'static str> {
    let span = |t: u64| t >= MAX_SPAN;
    let list = |l: &[u8]| l.len() > MAX_LIST;
    let checks = [
        ("sessions", c.sessions.len() > MAX_SESSIONS),
        ("services", c.services.len() > MAX_SERVICES),
        ("identifiers", c.identifiers.len() > MAX_IDENTIFIERS),
        ("levels", c.levels.len() > MAX_LEVELS),
        (
            "span",
            c.sessions
                .iter()
                .any(|s| span(s.p2) || span(s.p2_star) || span(s.s3)),
        ),
        ("span", c.identifiers.iter().any(|i| span(i.minimum))),
        ("span", c.levels.iter().any(|l| span(l.lockout))),
        ("list", c.services.iter().any(|s| list(&s.sessions))),
        (
            "list",
            c.identifiers
                .iter()
                .any(|i| list(&i.readable) || list(&i.writable)),
        ),
        (
            "seed or key",
            c.levels.iter().any(|l| l.seed > 32 || l.key > 32),
        ),
    ];
    checks
        .iter()
        .find(|(_, broken)| *broken)
        .map(|(name, _)| *name)
}

/// Which rule a state breaks, its configuration apart.
pub fn state_fault(s: &State) -> Option<&'static str> {
    let late = |t: u64| t > MAX_TIME + MAX_SPAN;
    let checks = [
        (
            "count",
            s.queue.len() > MAX_QUEUE || s.periodic.len() > MAX_PERIODIC,
        ),
        (
            "count",
            s.counts.len() > MAX_LEVELS || s.locks.len() > MAX_LEVELS,
        ),
        (
            "length",
            s.seed.len() > MAX_SEED || s.queue.iter().any(|(_, f)| f.len() > MAX_FRAME),
        ),
        ("empty frame", s.queue.iter().any(|(_, f)| f.is_empty())),
        ("last_rx", late(s.last_rx)),
        (
            "deadline",
            s.pending.as_ref().is_some_and(|p| late(p.deadline)),
        ),
        ("lock", s.locks.iter().any(|(_, t)| late(*t))),
        ("subscription", s.periodic.iter().any(|e| late(e.next))),
        (
            "subscription",
            s.periodic.iter().any(|e| e.interval >= MAX_SPAN),
        ),
    ];
    checks
        .iter()
        .find(|(_, broken)| *broken)
        .map(|(name, _)| *name)
}

pub fn valid(s: &Server) -> bool {
    config_fault(&s.config).is_none() && state_fault(&s.state).is_none()
}

/// The four ways in which a state that the published server's types can hold breaks its form; a script
/// cannot say more than these types hold.
pub fn fits(s: &State) -> bool {
    !matches!(state_fault(s), Some("count" | "length"))
}

/// The drained form of the queue: u16 length of what follows the kind, u16 kind 1, u32 destination, frame.
pub fn records(queue: &[(u32, Vec<u8>)]) -> Vec<u8> {
    let mut out = Vec::new();
    for (dst, frame) in queue {
        out.extend_from_slice(&(frame.len() as u16 + 4).to_le_bytes());
        out.extend_from_slice(&1u16.to_le_bytes());
        out.extend_from_slice(&dst.to_le_bytes());
        out.extend_from_slice(frame);
    }
    out
}

#[cfg(test)]
mod tests {
    use super::*;
    use crate::trace::fixed_config;
    use crate::types::{Entry, Pending};

    /// A change to the limit is taken, one past it is not.
    fn config_limit(name: &str, at: u64, set: impl Fn(&mut Config, u64)) {
        let mut c = fixed_config();
        set(&mut c, at);
        assert_eq!(config_fault(&c), None, "{name} at {at}");
        set(&mut c, at + 1);
        assert_eq!(config_fault(&c), Some(name), "{name} past {at}");
    }

    #[test]
    fn each_number_of_a_configuration_has_its_limit() {
        let span = MAX_SPAN - 1;
        let list = |n: u64| vec![1; n as usize];
        config_limit("sessions", 8, |c, n| {
            c.sessions.resize(n as usize, c.sessions[0].clone())
        });
        config_limit("services", 24, |c, n| {
            c.services.resize(n as usize, c.services[0].clone())
        });
        config_limit("identifiers", 128, |c, n| {
            c.identifiers.resize(n as usize, c.identifiers[0].clone())
        });
        config_limit("levels", 8, |c, n| {
            c.levels.resize(n as usize, c.levels[0].clone())
        });
        config_limit("span", span, |c, n| c.sessions[1].p2 = n);
        config_limit("span", span, |c, n| c.sessions[1].p2_star = n);
        config_limit("span", span, |c, n| c.sessions[1].s3 = n);
        config_limit("span", span, |c, n| c.identifiers[1].minimum = n);
        config_limit("span", span, |c, n| c.levels[0].lockout = n);
        config_limit("list", 8, |c, n| c.services[3].sessions = list(n));
        config_limit("list", 8, |c, n| c.identifiers[1].readable = list(n));
        config_limit("list", 8, |c, n| c.identifiers[1].writable = list(n));
        config_limit("seed or key", 32, |c, n| c.levels[0].seed = n);
        config_limit("seed or key", 32, |c, n| c.levels[0].key = n);
    }

    fn state_limit(name: &str, at: u64, set: impl Fn(&mut State, u64)) {
        let mut s = State::fresh();
        set(&mut s, at);
        assert_eq!(state_fault(&s), None, "{name} at {at}");
        set(&mut s, at + 1);
        assert_eq!(state_fault(&s), Some(name), "{name} past {at}");
    }

    #[test]
    fn each_number_of_a_state_has_its_limit() {
        let latest = MAX_TIME + MAX_SPAN;
        let entry = |interval, next| {
            let (id, client) = (0xF201, 1);
            vec![Entry {
                id,
                client,
                interval,
                next,
            }]
        };
        let pending = |deadline| {
            Some(Pending {
                dst: 1,
                sid: 1,
                deadline,
            })
        };
        state_limit("last_rx", latest, |s, n| s.last_rx = n);
        state_limit("deadline", latest, |s, n| s.pending = pending(n));
        state_limit("lock", latest, |s, n| s.locks = vec![(3, n)]);
        state_limit("subscription", latest, |s, n| s.periodic = entry(50, n));
        state_limit("subscription", MAX_SPAN - 1, |s, n| {
            s.periodic = entry(n, 50)
        });
        state_limit("length", 32, |s, n| s.seed = vec![0; n as usize]);
        state_limit("length", 256, |s, n| {
            s.queue = vec![(1, vec![0; n as usize])]
        });
        state_limit("count", 16, |s, n| s.queue = vec![(1, vec![0]); n as usize]);
        state_limit("count", 16, |s, n| {
            s.periodic = vec![entry(1, 1)[0].clone(); n as usize]
        });
        state_limit("count", 8, |s, n| s.counts = vec![(1, 1); n as usize]);
        state_limit("count", 8, |s, n| s.locks = vec![(1, 1); n as usize]);
    }

    #[test]
    fn an_empty_frame_does_not_wait() {
        let mut s = State::fresh();
        s.queue = vec![(1, vec![])];
        assert_eq!(state_fault(&s), Some("empty frame"));
    }
}
