//! What is printed after a call, and the lines of a script.

use std::fmt::Write;

use crate::parse::Line;
use crate::types::*;

/// Upper-case pairs; `-` for no bytes.
pub fn hex(bytes: &[u8]) -> String {
    if bytes.is_empty() {
        return "-".to_string();
    }
    const DIGITS: &[u8; 16] = b"0123456789ABCDEF";
    let digit = |n: u8| DIGITS[usize::from(n)] as char;
    bytes
        .iter()
        .flat_map(|b| [digit(b >> 4), digit(b & 15)])
        .collect()
}

/// The whole state: session line, pending request if any, seed, then a line for each count, lock,
/// subscription and waiting frame.
pub fn state(out: &mut String, s: &State) {
    let _ = writeln!(
        out,
        "state {} {} {} {}",
        s.session,
        s.level,
        s.last_rx,
        u8::from(s.functional)
    );
    if let Some(p) = &s.pending {
        let _ = writeln!(out, "pending {} {} {}", p.dst, p.sid, p.deadline);
    }
    let _ = writeln!(out, "seed {} {}", s.seed_level, hex(&s.seed));
    for (level, count) in &s.counts {
        let _ = writeln!(out, "count {level} {count}");
    }
    for (level, until) in &s.locks {
        let _ = writeln!(out, "lock {level} {until}");
    }
    for e in &s.periodic {
        let _ = writeln!(
            out,
            "periodic {} {} {} {}",
            e.id, e.client, e.interval, e.next
        );
    }
    for (dst, frame) in &s.queue {
        let _ = writeln!(out, "> {dst} {}", hex(frame));
    }
}

pub fn answer(out: &mut String, name: &str, a: &Answer) {
    let _ = writeln!(out, "{name} {} {}", a.result, a.error);
}

pub fn act(out: &mut String, a: &Act) {
    let _ = write!(out, "act {}", a.number);
    for (start, length) in &a.places {
        let _ = write!(out, " {start} {length}");
    }
    out.push('\n');
}

/// The lent buffer after a drain, without the bytes at its end that still equal the fill byte.
pub fn buffer(out: &mut String, buffer: &[u8], fill: u8) {
    let shown = buffer.iter().rposition(|b| *b != fill).map_or(0, |i| i + 1);
    let _ = writeln!(out, "buffer {}", hex(&buffer[..shown]));
}

fn request(r: &Request) -> String {
    format!("{} {} {} {}", r.time, r.src, r.dst, hex(&r.frame))
}

fn identifier(i: &IdentifierRow) -> String {
    let (read, write) = (hex(&i.readable), hex(&i.writable));
    format!(
        "identifier {} {} {} {} {read} {write}",
        i.id,
        i.level,
        u8::from(i.periodic),
        i.minimum
    )
}

/// The script line that reads back as `line`.
pub fn line(line: &Line) -> String {
    config_row(line)
        .or_else(|| state_row(line))
        .unwrap_or_else(|| call(line))
}

fn config_row(line: &Line) -> Option<String> {
    Some(match line {
        Line::Config(p, f) => format!("config {p} {f}"),
        Line::Session(s) => format!("session {} {} {} {}", s.kind, s.p2, s.p2_star, s.s3),
        Line::Service(s) => format!("service {} {} {}", s.sid, s.level, hex(&s.sessions)),
        Line::Identifier(i) => identifier(i),
        Line::Level(l) => {
            let head = format!("level {} {}", l.level, l.attempts);
            format!("{head} {} {} {}", l.lockout, l.seed, l.key)
        }
        _ => return None,
    })
}

fn state_row(line: &Line) -> Option<String> {
    Some(match line {
        Line::State {
            session,
            level,
            last_rx,
            functional,
        } => {
            let mode = u8::from(*functional);
            format!("state {session} {level} {last_rx} {mode}")
        }
        Line::Pending(p) => format!("pending {} {} {}", p.dst, p.sid, p.deadline),
        Line::Seed(level, bytes) => format!("seed {level} {}", hex(bytes)),
        Line::Count(level, n) => format!("count {level} {n}"),
        Line::Lock(level, until) => format!("lock {level} {until}"),
        Line::Periodic(e) => format!("periodic {} {} {} {}", e.id, e.client, e.interval, e.next),
        Line::Queued(dst, frame) => format!("> {dst} {}", hex(frame)),
        Line::Row(r) => format!("row {} {} {} {}", r.id, r.error, r.start, r.length),
        Line::Pool(bytes) => format!("pool {}", hex(bytes)),
        _ => return None,
    })
}

fn call(line: &Line) -> String {
    match line {
        Line::Fresh => "fresh".to_string(),
        Line::Hold => "hold".to_string(),
        Line::Values => "values".to_string(),
        Line::Request(r, o) => format!("request {} {} {}", request(r), o.error, hex(&o.bytes)),
        Line::Question(r) => format!("question {}", request(r)),
        Line::Tick(t) => format!("tick {t}"),
        Line::Complete(t, bytes) => format!("complete {t} {}", hex(bytes)),
        Line::Fail(t, code) => format!("fail {t} {code}"),
        Line::Drain { length, fill } => format!("drain {length} {fill}"),
        row => unreachable!("{row:?} is a row"),
    }
}
