//! Time passing, pending requests and draining.

use form::numbers::{MAX_FRAME, MAX_QUEUE, records};
use form::{Answer, Server, Values};

use crate::branches::Hits;
use crate::case::{p2_star, push, session};
use crate::data::note_value;

/// Where a time stands to the moment a rule names.
fn stand(time: u64, moment: u64) -> &'static str {
    match time {
        t if t + 1 == moment => "a moment before",
        t if t < moment => "before",
        t if t == moment => "at the moment",
        _ => "after",
    }
}

pub fn tick(s: &mut Server, v: &Values, time: u64, hits: &mut Hits) -> Answer {
    let (session, deadline) = (
        s.state.session,
        s.state.pending.as_ref().map(|p| p.deadline),
    );
    expire(s, time, hits);
    if session != s.state.session && deadline.is_some_and(|d| time >= d) {
        hits.hit("deadline: P2* of session 1 after S3");
    }
    if refresh(s, time, hits) == 3 {
        if s.state.periodic.iter().any(|e| time >= e.next) {
            hits.hit("result 3: the refresh before what is due");
        }
        return Answer::of(3);
    }
    send_due(s, v, time, hits)
}

/// Back to session 1 when more than S3 has passed since the last frame.
fn expire(s: &mut Server, time: u64, hits: &mut Hits) {
    if s.state.session == 1 {
        return hits.hit("S3: session 1");
    }
    let row = session(s, s.state.session).map(|row| row.s3);
    if row.is_none() {
        hits.hit("S3: default");
    }
    if time < s.state.last_rx {
        return hits.hit("S3: the clock went back");
    }
    let (passed, s3) = (time - s.state.last_rx, row.unwrap_or(5000));
    if passed <= s3 {
        return hits.either(passed == s3, "S3: at equality", "S3: not yet");
    }
    hits.either(passed == s3 + 1, "S3: expired by one", "S3: expired");
    if !s.state.seed.is_empty() {
        hits.hit("S3: seed cleared");
    }
    if s.state.level > 0 {
        hits.hit("S3: level dropped");
    }
    s.state.session = 1;
    s.state.level = 0;
    s.state.seed.clear();
    s.state.seed_level = 0;
}

/// At the deadline: a new deadline, then another 0x78.
fn refresh(s: &mut Server, time: u64, hits: &mut Hits) -> u8 {
    let span = p2_star(s);
    let known = session(s, s.state.session).is_some();
    let Some(pending) = s.state.pending.as_mut() else {
        hits.hit("deadline: nothing pending");
        return 0;
    };
    hits.hit(&format!("deadline: {}", stand(time, pending.deadline)));
    if time < pending.deadline {
        return 0;
    }
    if !known {
        hits.hit("deadline: default P2*");
    }
    pending.deadline = time + span;
    let (dst, frame) = (pending.dst, vec![0x7F, pending.sid, 0x78]);
    let result = push(s, dst, frame);
    if result == 3 {
        hits.hit("result 3: refreshed 78");
    }
    result
}

/// Entries due at the start, in table order; each meets 8, 4, 3 in that order.
fn send_due(s: &mut Server, v: &Values, time: u64, hits: &mut Hits) -> Answer {
    let mut sent = 0;
    for i in 0..s.state.periodic.len() {
        let entry = s.state.periodic[i].clone();
        hits.hit(&format!("next: {}", stand(time, entry.next)));
        if time < entry.next {
            continue;
        }
        note_value(hits, v, entry.id);
        let full = s.state.queue.len() == MAX_QUEUE;
        let ended = match v.read(entry.id) {
            Err(error) => Answer {
                result: 8,
                error,
                ..Answer::default()
            },
            Ok(value) if value.len() + 1 > MAX_FRAME => Answer::of(4),
            Ok(value) => {
                if value.len() + 1 == MAX_FRAME {
                    hits.hit("periodic: frame of 256");
                }
                Answer::of(push(s, entry.client, [&[entry.id as u8], value].concat()))
            }
        };
        if ended.result != 0 {
            note_end(ended.result, full, sent, hits);
            return ended;
        }
        s.state.periodic[i].next = time + entry.interval;
        sent += 1;
    }
    hits.hit(match sent {
        0 => "periodic: nothing due",
        1 => "periodic: one sent",
        _ => "periodic: several sent",
    });
    Answer::of(0)
}

fn note_end(result: u8, full: bool, sent: usize, hits: &mut Hits) {
    hits.hit(&format!("result {result}: periodic"));
    if full && result != 3 {
        hits.hit(&format!("result {result}: before 3"));
    }
    if sent > 0 {
        hits.hit(&format!("result {result}: earlier ones stay"));
    }
}

pub fn complete(s: &mut Server, bytes: &[u8], hits: &mut Hits) -> u8 {
    let Some(pending) = s.state.pending.take() else {
        hits.hit("result 1: complete");
        return 1;
    };
    let long = bytes.len() + 1 > MAX_FRAME;
    hits.hit(match bytes.len() {
        255 => "complete: frame of 256",
        _ if long => "complete: 14",
        _ => "complete: sent",
    });
    if s.state.functional {
        hits.hit("complete: functional");
    }
    let frame = match long {
        true => vec![0x7F, pending.sid, 0x14],
        false => [&[pending.sid | 0x40], bytes].concat(),
    };
    let result = push(s, pending.dst, frame);
    if result == 3 {
        hits.hit("result 3: complete");
    }
    result
}

pub fn fail(s: &mut Server, code: u8, hits: &mut Hits) -> u8 {
    let Some(pending) = s.state.pending.take() else {
        hits.hit("result 1: fail");
        return 1;
    };
    let withheld = [0x11, 0x12, 0x31, 0x7E, 0x7F].contains(&code);
    hits.hit(match code {
        0 => "fail: code 0",
        0x78 => "fail: code 78 starts nothing",
        _ if s.state.functional && withheld => "fail: functional, sent all the same",
        _ => "fail: sent",
    });
    let result = push(s, pending.dst, vec![0x7F, pending.sid, code]);
    if result == 3 {
        hits.hit("result 3: fail");
    }
    result
}

/// The oldest first; the rest of the buffer stays.
pub fn drain(s: &mut Server, buffer: &mut [u8], hits: &mut Hits) -> (u8, usize) {
    let written = records(&s.state.queue);
    if written.len() > buffer.len() {
        hits.either(
            written.len() == buffer.len() + 1,
            "result 5: by one",
            "result 5: drain",
        );
        return (5, 0);
    }
    let count = s.state.queue.len();
    hits.hit(match count {
        0 => "drain: nothing",
        1 => "drain: one",
        16 => "drain: sixteen",
        _ => "drain: several",
    });
    hits.either(
        written.len() == buffer.len(),
        "drain: to the byte",
        "drain: rest unchanged",
    );
    buffer[..written.len()].copy_from_slice(&written);
    s.state.queue.clear();
    (0, count)
}
