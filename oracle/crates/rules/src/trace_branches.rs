//! Which branches of the trace form an input goes through; the calls in it are counted by the server.

use form::trace::{MAX_TRACE, Record, next};

use crate::branches::Hits;

pub fn note_trace(input: &[u8], hits: &mut Hits) {
    if input.len() > MAX_TRACE {
        hits.hit("trace: longer than 65536");
    }
    let mut rest = &input[..input.len().min(MAX_TRACE)];
    let mut outcome = false;
    while !rest.is_empty() {
        let Some((record, after)) = next(rest) else {
            return hits.hit(&format!("trace bad: {}", why_bad(rest)));
        };
        outcome = note_record(&record, outcome, hits);
        rest = after;
    }
    hits.hit("trace: end");
}

/// Whether an outcome waits after the record.
fn note_record(record: &Record, outcome: bool, hits: &mut Hits) -> bool {
    match record {
        Record::Request(r) => {
            hits.hit("trace: request");
            hits.either(
                outcome,
                "trace: outcome used up by a request",
                "trace: no outcome",
            );
            if r.frame.is_empty() {
                hits.hit("trace: request of no bytes");
            }
            false
        }
        Record::Tick(_) => {
            hits.hit("trace: tick");
            if outcome {
                hits.hit("trace: outcome kept over a tick");
            }
            outcome
        }
        Record::Outcome(_) => {
            hits.hit("trace: outcome");
            if outcome {
                hits.hit("trace: outcome replaced");
            }
            true
        }
        Record::Value { id, bytes, .. } => {
            let known = [0xF190, 0xF201].contains(id);
            hits.either(known, "trace: value", "trace: value with no row");
            if known && bytes.len() > 256 {
                hits.hit("trace: value above 256");
            }
            outcome
        }
    }
}

fn why_bad(rest: &[u8]) -> &'static str {
    if rest.len() < 4 {
        return "cut head";
    }
    let length = usize::from(u16::from_le_bytes([rest[0], rest[1]]));
    if rest.len() - 4 < length {
        return "cut body";
    }
    match u16::from_le_bytes([rest[2], rest[3]]) {
        1 => "kind 1 below 16",
        2 => "kind 2 not 8",
        3 => "kind 3 empty",
        4 => "kind 4 below 3",
        _ => "unknown kind",
    }
}
