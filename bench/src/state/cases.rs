//! What is measured of a state: whether it is valid, and effects that are carried out on it.

use std::hint::black_box;

use super::held::{Asked, Effect, Held, Reply};
use super::{config, ours};
use crate::cases::Case;

const PAYLOAD: u8 = 0xA5;

/// Nothing held, and no seed asked for.
fn nothing() -> Held {
    Held::fresh(config::fixed())
}

/// Sixteen subscriptions and sixteen frames of six bytes.
fn filled(config: super::held::Config) -> Held {
    let mut h = Held::fresh(config);
    (h.state.subscriptions, h.state.frames) = (16, 16);
    for row in h.subscriptions.chunks_exact_mut(4) {
        row.copy_from_slice(&[0xF201, 3712, 1000, 5000]);
    }
    for head in h.heads.chunks_exact_mut(2) {
        head.copy_from_slice(&[3712, 6]);
    }
    h.room.fill(PAYLOAD);
    h
}

fn is_valid(h: &mut Held, _: &mut [u8]) {
    black_box(ours::is_valid(h));
}

/// What a service that changes nothing wants.
const fn says(reply: Reply) -> Effect {
    Effect {
        reply,
        session: 1,
        level: 0,
        subscriptions: 0,
        waits: false,
        clears_seed: false,
    }
}

fn apply(h: &mut Held, sid: u8, e: Effect) {
    let asked = Asked {
        to: 3712,
        sid,
        t: 5000,
        functional: false,
    };
    black_box(&ours::apply(h, asked, e));
}

/// 11: the reset waits until its echo is queued.
fn reset(h: &mut Held, _: &mut [u8]) {
    let e = Effect {
        waits: true,
        clears_seed: true,
        ..says(Reply::Positive(1))
    };
    apply(h, 0x11, e);
}

/// 10: another session, answered with its timings.
fn opened(h: &mut Held, _: &mut [u8]) {
    let e = Effect {
        session: 3,
        clears_seed: true,
        ..says(Reply::Positive(5))
    };
    apply(h, 0x10, e);
}

fn silent(h: &mut Held, _: &mut [u8]) {
    apply(h, 0x3E, says(Reply::Silent));
}

fn positive(h: &mut Held, _: &mut [u8]) {
    apply(h, 0x3E, says(Reply::Positive(1)));
}

fn negative(h: &mut Held, _: &mut [u8]) {
    apply(h, 0x22, says(Reply::Negative(0x31)));
}

fn pends(h: &mut Held, _: &mut [u8]) {
    apply(h, 0x31, says(Reply::Pends));
}

/// Each leaves the state that is held as it was, so that it can be run again.
pub fn all() -> Vec<Case<Held>> {
    let case = |name, made, run| Case {
        name,
        made,
        run,
        lent: 0,
    };
    let empty_full = || Held::fresh(config::full());
    vec![
        case("valid: fixed, 0 rows", nothing, is_valid),
        case(
            "valid: fixed, 16 rows",
            || filled(config::fixed()),
            is_valid,
        ),
        case("valid: full, 0 rows", empty_full, is_valid),
        case("valid: full, 16 rows", || filled(config::full()), is_valid),
        case("apply: silent", nothing, silent),
        case("apply: positive of 1 byte", nothing, positive),
        case("apply: negative", nothing, negative),
        case("apply: pends", nothing, pends),
        case("apply: session opened", nothing, opened),
        case("apply: waits, room", nothing, reset),
        case("apply: waits, 16 wait", || filled(config::fixed()), reset),
        case("the loop alone", nothing, |_, _| {}),
    ]
}
