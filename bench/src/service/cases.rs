//! What is measured of each service: a refusal, an ordinary answer, the longest that can be sent, and where it matters the same in the full
//! configuration, at the last row of every table. A case is a line.

use super::asked::{Asked, Said, fixed, full, negative, positive};
use super::ours;
use crate::cases::Case;

/// A case and what it must say.
pub type Row = (Case<Asked>, Said);

const SILENT: Said = Said { n: 0, kind: 0 };

/// A service as a case: what it said is kept.
macro_rules! run {
    ($service:ident) => {
        |a: &mut Asked, _: &mut [u8]| a.said = ours::$service(a)
    };
}

/// 27 with a seed that awaits its key, for a level; so many refused keys counted for it.
macro_rules! key {
    ($length:expr, $level:expr, $failed:expr) => {
        |a: &mut Asked, _: &mut [u8]| {
            a.security[..4].copy_from_slice(&[$length, $level, 1, 0]);
            a.security[36..38].copy_from_slice(&[$level, $failed]);
            a.said = ours::service27(a);
        }
    };
}

fn row(name: &'static str, run: fn(&mut Asked, &mut [u8]), made: fn() -> Asked, says: Said) -> Row {
    let case = Case {
        name,
        made,
        run,
        lent: 0,
    };
    (case, says)
}

#[rustfmt::skip]
fn management() -> Vec<Row> {
    vec![
        row("3E: echo", run!(service3E), || fixed(1).of(&[0]), positive(1)),
        row("3E: suppressed", run!(service3E), || fixed(1).of(&[0x80]), SILENT),
        row("10: unknown session", run!(service10), || fixed(1).of(&[9]), negative(0x12)),
        row("10: opened", run!(service10), || fixed(1).of(&[3]), positive(5)),
        row("10: opened, full, last row", run!(service10), || full(1).of(&[8]), positive(5)),
        row("11: short", run!(service11), || fixed(1), negative(0x13)),
        row("11: reset", run!(service11), || fixed(1).of(&[1]), positive(1)),
        row("27: no level of that number", run!(service27), || fixed(1).of(&[5]), negative(0x12)),
        row("27: seed of 4", run!(service27), || fixed(1).of(&[3]).given(4), positive(5)),
        row("27: seed of 31, full, last row", run!(service27), || full(1).of(&[7]).given(31), positive(32)),
        row("27: key of 4 accepted", key!(4, 3, 1), || fixed(1).of(&[4]).and(4), positive(1)),
        row("27: key of 4 refused", key!(4, 3, 1), || fixed(1).of(&[4]).and(4).failed(0x35), negative(0x35)),
        row("27: key of 4 refused, then locked", key!(4, 3, 2), || fixed(1).of(&[4]).and(4).failed(0x35), negative(0x36)),
        row("27: key of 32 accepted, full, last row", key!(31, 7, 1), || full(1).of(&[8]).and(32), positive(1)),
        row("28: short", run!(service28), || fixed(1).of(&[0]), negative(0x13)),
        row("28: echo", run!(service28), || fixed(1).of(&[0, 1]), positive(1)),
    ]
}

#[rustfmt::skip]
fn transmission() -> Vec<Row> {
    vec![
        row("22: short", run!(service22), || fixed(1).of(&[0xF2]), negative(0x13)),
        row("22: unknown identifier", run!(service22), || fixed(1).reads(0xF202, 1), negative(0x31)),
        row("22: 1 identifier of 1 byte", run!(service22), || fixed(1).reads(0xF201, 1), positive(3)),
        row("22: 1 identifier of 253 bytes", run!(service22), || fixed(253).reads(0xF201, 1), positive(255)),
        row("22: 127 identifiers of 0 bytes", run!(service22), || fixed(0).reads(0xF201, 127), positive(254)),
        row("22: 129 identifiers of 0 bytes", run!(service22), || fixed(0).reads(0xF201, 129), negative(0x14)),
        row("22: 1 of 253 bytes, full, last row", run!(service22), || full(253).reads(0xF27F, 1), positive(255)),
        row("22: 127 of 0 bytes, full, last row", run!(service22), || full(0).reads(0xF27F, 127), positive(254)),
        row("22: 129 of 0 bytes, full, last row", run!(service22), || full(0).reads(0xF27F, 129), negative(0x14)),
        row("2E: short", run!(service2E), || fixed(1).of(&[0xF2, 1]), negative(0x13)),
        row("2E: unknown identifier", run!(service2E), || fixed(1).of(&[0xF2, 2, 0]), negative(0x31)),
        row("2E: written", run!(service2E), || fixed(1).of(&[0xF2, 1, 0]), positive(2)),
        row("2E: written, full, last row", run!(service2E), || full(1).of(&[0xF2, 0x7F, 0]), positive(2)),
        row("2A: unknown mode", run!(service2A), || fixed(1).of(&[5, 1]), negative(0x12)),
        row("2A: 1 subscription", run!(service2A), || fixed(1).of(&[1, 1]), positive(1)),
        row("2A: 1, full, last row", run!(service2A), || full(1).of(&[1, 0x7F]), positive(1)),
        row("2A: 16, full, last sixteen rows", run!(service2A), sixteen, positive(1)),
    ]
}

/// Sixteen identifiers, F270 to F27F.
fn sixteen() -> Asked {
    let mut asked = full(1).of(&[1]);
    asked.payload.extend(0x70..=0x7F);
    asked
}

#[rustfmt::skip]
fn control() -> Vec<Row> {
    vec![
        row("2F: short", run!(service2f), || fixed(1).of(&[0xF2, 1]), negative(0x13)),
        row("2F: 4 bytes", run!(service2f), || fixed(1).of(&[0xF2, 1, 3]).given(4), positive(6)),
        row("2F: 253 bytes", run!(service2f), || fixed(1).of(&[0xF2, 1, 3]).given(253), positive(255)),
        row("2F: 256 bytes", run!(service2f), || fixed(1).of(&[0xF2, 1, 3]).given(256), negative(0x14)),
        row("31: short", run!(service31), || fixed(1).of(&[1, 2]), negative(0x13)),
        row("31: 4 bytes", run!(service31), || fixed(1).of(&[1, 2, 3]).given(4), positive(7)),
        row("31: 252 bytes", run!(service31), || fixed(1).of(&[1, 2, 3]).given(252), positive(255)),
        row("31: 256 bytes", run!(service31), || fixed(1).of(&[1, 2, 3]).given(256), negative(0x14)),
    ]
}

#[rustfmt::skip]
fn transfer() -> Vec<Row> {
    const DOWNLOAD: [u8; 10] = [0, 0x44, 0, 0, 0, 1, 0, 0, 0, 2];
    const FILE: [u8; 7] = [1, 0, 4, b'p', b'a', b't', b'h'];
    vec![
        row("34: short", run!(service34), || fixed(1).of(&DOWNLOAD[..9]), negative(0x13)),
        row("34: 2 bytes", run!(service34), || fixed(1).of(&DOWNLOAD).given(2), positive(2)),
        row("34: 64 bytes", run!(service34), || fixed(1).of(&DOWNLOAD).given(64), positive(64)),
        row("36: short", run!(service36), || fixed(1), negative(0x13)),
        row("36: 4 bytes", run!(service36), || fixed(1).of(&[1]).and(64).given(4), positive(5)),
        row("36: 254 bytes", run!(service36), || fixed(1).of(&[1]).and(64).given(254), positive(255)),
        row("36: 256 bytes", run!(service36), || fixed(1).of(&[1]).and(64).given(256), negative(0x14)),
        row("37: an error", run!(service37), || fixed(1).failed(0x24), negative(0x24)),
        row("37: 4 bytes", run!(service37), || fixed(1).given(4), positive(4)),
        row("37: 255 bytes", run!(service37), || fixed(1).given(255), positive(255)),
        row("37: 256 bytes", run!(service37), || fixed(1).given(256), positive(256)),
        row("38: short", run!(service38), || fixed(1).of(&FILE[..2]), negative(0x13)),
        row("38: 4 bytes", run!(service38), || fixed(1).of(&FILE).given(4), positive(4)),
        row("38: 255 bytes", run!(service38), || fixed(1).of(&FILE).given(255), positive(255)),
        row("38: 256 bytes", run!(service38), || fixed(1).of(&FILE).given(256), positive(256)),
    ]
}

/// Each can be run again: what it needs to find is put back first, or is not changed.
pub fn all() -> Vec<Row> {
    let loops = row("the loop alone", |_, _| {}, || fixed(1), SILENT);
    let parts = [management(), transmission(), control(), transfer()];
    parts.into_iter().flatten().chain([loops]).collect()
}
