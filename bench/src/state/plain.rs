//! The same two in plain Rust, to be compared with: when a state is valid, and what an effect leaves.

use super::held::{Asked, Effect, Held, MAX_MOMENT, MAX_SPAN, Pending, Reply, Session, State};
use crate::plain::Plain;
use crate::queue::{MAX_FRAME, PLACES, Queue};

const MOST_ROWS: [u32; 4] = [8, 24, 128, 8];

/// The counts of the configuration; its rows cannot be outside a number, however they read.
fn config_valid(h: &Held) -> bool {
    h.config[2..6]
        .iter()
        .zip(MOST_ROWS)
        .all(|(n, most)| *n <= most)
}

fn security_valid(h: &Held) -> bool {
    let [length, _, failed, locks] = h.security[..4] else {
        return false;
    };
    length <= 32
        && failed <= 8
        && locks <= 8
        && h.security[52..]
            .chunks_exact(2)
            .take(locks as usize)
            .all(|lock| lock[1] <= MAX_MOMENT)
}

fn subscriptions_valid(h: &Held) -> bool {
    let n = usize::from(h.state.subscriptions);
    n <= 16
        && h.subscriptions
            .chunks_exact(4)
            .take(n)
            .all(|row| row[2] < MAX_SPAN && row[3] <= MAX_MOMENT)
}

pub fn is_valid(h: &Held) -> bool {
    let State {
        session, pending, ..
    } = h.state;
    config_valid(h)
        && session.last_rx <= MAX_MOMENT
        && security_valid(h)
        && subscriptions_valid(h)
        && (!pending.on || pending.deadline <= MAX_MOMENT)
        && h.queue().is_valid()
}

/// The reply into the queue.
fn push(queue: &mut Plain, asked: Asked, reply: Reply) -> u8 {
    let Asked {
        to,
        sid,
        functional,
        ..
    } = asked;
    match reply {
        Reply::Silent => 0,
        Reply::Positive(length) => {
            let place = MAX_FRAME * usize::from(queue.0.count).min(PLACES);
            let payload = queue.0.room[place + 1..][..usize::from(length)].to_vec();
            queue.confirm(functional, to, sid, &payload)
        }
        Reply::Negative(code) => queue.refuse(functional, to, sid, code),
        Reply::Always(code) => queue.refuse(false, to, sid, code),
        Reply::Pends => queue.refuse(false, to, sid, 0x78),
    }
}

/// P2* of the first row of the session, or the default.
fn p2_ext(h: &Held, session: u8) -> u64 {
    let rows = h.config[6..38].chunks_exact(4).take(h.config[2] as usize);
    let found = rows.into_iter().find(|row| row[0] == u32::from(session));
    found.map_or(5000, |row| u64::from(row[2]))
}

/// For a configuration that keeps the numbers. The result; all that is held is then as it is to be.
pub fn apply(h: &mut Held, asked: Asked, e: Effect) -> u8 {
    let s = h.state;
    let mut queue = Plain(h.queue());
    let result = push(&mut queue, asked, e.reply);
    (h.heads, h.room) = (queue.0.heads, queue.0.room);
    let pending = match e.reply {
        Reply::Pends => Pending {
            deadline: asked.t.saturating_add(p2_ext(
                h,
                if e.waits {
                    s.session.session_type
                } else {
                    e.session
                },
            )),
            dst: asked.to,
            sid: asked.sid,
            on: true,
        },
        _ => s.pending,
    };
    let made = !e.waits || result == 0;
    if made && e.clears_seed {
        h.security[..2].fill(0);
        h.security[4..36].fill(0);
    }
    h.state = State {
        session: Session {
            last_rx: asked.t,
            session_type: if made {
                e.session
            } else {
                s.session.session_type
            },
            level: if made { e.level } else { s.session.level },
        },
        pending,
        functional: asked.functional,
        subscriptions: if made {
            e.subscriptions
        } else {
            s.subscriptions
        },
        frames: queue.0.count,
    };
    result
}
