//! What is measured: the same operations on each queue.

use std::hint::black_box;

use crate::queue::Queue;

/// An operation that can be run again and again, and what it begins with.
pub struct Case<Q> {
    pub name: &'static str,
    pub made: fn() -> Q,
    pub run: fn(&mut Q, &mut [u8]),
    /// The length of the lent buffer.
    pub lent: usize,
}

const TO: u32 = 3712;
const SHORT: [u8; 5] = [0x03, 0x00, 0x32, 0x01, 0xF4];
const LONG: [u8; 255] = [0xA5; 255];

/// Room for sixteen records of the longest frames.
const ROOMY: usize = 16 * (8 + 256);

/// A byte less than sixteen records of six bytes each.
const TIGHT: usize = 16 * (8 + 6) - 1;

fn negative<Q: Queue>(queue: &mut Q) {
    black_box(queue.refuse(black_box(false), TO, 0x22, black_box(0x31)));
}

fn short<Q: Queue>(queue: &mut Q) {
    black_box(queue.confirm(black_box(false), TO, 0x10, black_box(&SHORT)));
}

fn long<Q: Queue>(queue: &mut Q) {
    black_box(queue.confirm(black_box(false), TO, 0x22, black_box(&LONG)));
}

fn sixteen<Q: Queue>(queue: &mut Q) {
    for _ in 0..16 {
        short(queue);
    }
}

fn sixteen_wait<Q: Queue>() -> Q {
    let mut queue = Q::new();
    sixteen(&mut queue);
    queue
}

fn drain<Q: Queue>(queue: &mut Q, out: &mut [u8]) {
    black_box(queue.drain(black_box(out)));
}

/// Pushes and the drain that takes them out again.
pub fn timed<Q: Queue>() -> Vec<Case<Q>> {
    let case = |name, run| Case {
        name,
        made: Q::new,
        run,
        lent: ROOMY,
    };
    vec![
        case("negative frame, drain", |q, out| {
            negative(q);
            drain(q, out);
        }),
        case("positive frame of 6, drain", |q, out| {
            short(q);
            drain(q, out);
        }),
        case("positive frame of 256, drain", |q, out| {
            long(q);
            drain(q, out);
        }),
        case("16 positive frames of 6, drain", |q, out| {
            sixteen(q);
            drain(q, out);
        }),
        Case {
            name: "drain of 16 refused by 5",
            made: sixteen_wait,
            run: drain,
            lent: TIGHT,
        },
    ]
}

/// Single calls, each on a queue made ready for it.
pub fn calls<Q: Queue>() -> Vec<Case<Q>> {
    let case = |name, made, run| Case {
        name,
        made,
        run,
        lent: ROOMY,
    };
    vec![
        case("push of a negative frame", Q::new, |q, _| negative(q)),
        case("push of a positive frame of 6", Q::new, |q, _| short(q)),
        case("push of a positive frame of 256", Q::new, |q, _| long(q)),
        case("drain of 16 frames of 6", sixteen_wait, drain),
    ]
}

/// A drain that is refused is not for the published Rust: it tests no buffer.
pub const REFUSED: usize = 4;
