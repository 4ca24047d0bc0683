//! Reads one line of the script form.

use crate::types::*;

#[derive(Debug, Clone, PartialEq, Eq)]
pub enum Line {
    Config(u16, u16),
    Session(SessionRow),
    Service(ServiceRow),
    Identifier(IdentifierRow),
    Level(LevelRow),
    Fresh,
    Hold,
    State {
        session: u8,
        level: u8,
        last_rx: u64,
        functional: bool,
    },
    Pending(Pending),
    Seed(u8, Vec<u8>),
    Count(u8, u8),
    Lock(u8, u64),
    Periodic(Entry),
    Queued(u32, Vec<u8>),
    Values,
    Row(ValueRow),
    Pool(Vec<u8>),
    Request(Request, Outcome),
    Question(Request),
    Tick(u64),
    Complete(u64, Vec<u8>),
    Fail(u64, u8),
    Drain {
        length: usize,
        fill: u8,
    },
}

/// The words of a line after the first, taken one by one.
struct Words<'a>(std::str::Split<'a, char>);

impl Words<'_> {
    /// A decimal number with no sign, no leading zero and within its type.
    fn number<T: TryFrom<u64>>(&mut self) -> Option<T> {
        let word = self.0.next()?;
        let plain =
            word.bytes().all(|b| b.is_ascii_digit()) && (word == "0" || !word.starts_with('0'));
        T::try_from(if plain {
            word.parse().ok()?
        } else {
            return None;
        })
        .ok()
    }

    fn flag(&mut self) -> Option<bool> {
        match self.0.next()? {
            "0" => Some(false),
            "1" => Some(true),
            _ => None,
        }
    }

    fn bytes(&mut self) -> Option<Vec<u8>> {
        unhex(self.0.next()?)
    }
}

/// Upper-case pairs; `-` for no bytes.
pub fn unhex(word: &str) -> Option<Vec<u8>> {
    if word == "-" {
        return Some(Vec::new());
    }
    let digit = |b: u8| match b {
        b'0'..=b'9' => Some(b - b'0'),
        b'A'..=b'F' => Some(b - b'A' + 10),
        _ => None,
    };
    let (pairs, rest) = word.as_bytes().as_chunks::<2>();
    if pairs.is_empty() || !rest.is_empty() {
        return None;
    }
    pairs
        .iter()
        .map(|[h, l]| Some(digit(*h)? << 4 | digit(*l)?))
        .collect()
}

pub fn parse(line: &str) -> Option<Line> {
    [config_row, state_row, call].iter().find_map(|read| {
        let mut words = Words(line.split(' '));
        let name = words.0.next()?;
        let parsed = read(name, &mut words)?;
        words.0.next().is_none().then_some(parsed)
    })
}

/// Rows of the configuration.
fn config_row(name: &str, w: &mut Words) -> Option<Line> {
    Some(match name {
        "config" => Line::Config(w.number()?, w.number()?),
        "session" => Line::Session(SessionRow {
            kind: w.number()?,
            p2: w.number()?,
            p2_star: w.number()?,
            s3: w.number()?,
        }),
        "service" => Line::Service(ServiceRow {
            sid: w.number()?,
            level: w.number()?,
            sessions: w.bytes()?,
        }),
        "identifier" => Line::Identifier(identifier(w)?),
        "level" => Line::Level(LevelRow {
            level: w.number()?,
            attempts: w.number()?,
            lockout: w.number()?,
            seed: w.number()?,
            key: w.number()?,
        }),
        _ => return None,
    })
}

/// Parts of a handed-in state and of the value table.
fn state_row(name: &str, w: &mut Words) -> Option<Line> {
    Some(match name {
        "state" => Line::State {
            session: w.number()?,
            level: w.number()?,
            last_rx: w.number()?,
            functional: w.flag()?,
        },
        "pending" => Line::Pending(Pending {
            dst: w.number()?,
            sid: w.number()?,
            deadline: w.number()?,
        }),
        "seed" => Line::Seed(w.number()?, w.bytes()?),
        "count" => Line::Count(w.number()?, w.number()?),
        "lock" => Line::Lock(w.number()?, w.number()?),
        "periodic" => Line::Periodic(entry(w)?),
        ">" => Line::Queued(w.number()?, w.bytes()?),
        "row" => Line::Row(value_row(w)?),
        "pool" => Line::Pool(w.bytes()?),
        _ => return None,
    })
}

fn identifier(w: &mut Words) -> Option<IdentifierRow> {
    Some(IdentifierRow {
        id: w.number()?,
        level: w.number()?,
        periodic: w.flag()?,
        minimum: w.number()?,
        readable: w.bytes()?,
        writable: w.bytes()?,
    })
}

fn entry(w: &mut Words) -> Option<Entry> {
    Some(Entry {
        id: w.number()?,
        client: w.number()?,
        interval: w.number()?,
        next: w.number()?,
    })
}

/// Start and length stay below 2^32, so that their sum is exact in any server.
fn value_row(w: &mut Words) -> Option<ValueRow> {
    Some(ValueRow {
        id: w.number()?,
        error: w.number()?,
        start: u64::from(w.number::<u32>()?),
        length: u64::from(w.number::<u32>()?),
    })
}

fn request(w: &mut Words) -> Option<Request> {
    Some(Request {
        time: w.number()?,
        src: w.number()?,
        dst: w.number()?,
        frame: w.bytes()?,
    })
}

fn call(name: &str, w: &mut Words) -> Option<Line> {
    Some(match name {
        "fresh" => Line::Fresh,
        "hold" => Line::Hold,
        "values" => Line::Values,
        "request" => Line::Request(
            request(w)?,
            Outcome {
                error: w.number()?,
                bytes: w.bytes()?,
            },
        ),
        "question" => Line::Question(request(w)?),
        "tick" => Line::Tick(w.number()?),
        "complete" => Line::Complete(w.number()?, w.bytes()?),
        "fail" => Line::Fail(w.number()?, w.number()?),
        "drain" => Line::Drain {
            length: usize::from(w.number::<u16>()?),
            fill: w.number()?,
        },
        _ => return None,
    })
}

#[cfg(test)]
mod tests {
    use super::*;

    #[test]
    fn only_the_form_is_read() {
        assert_eq!(parse("tick 7"), Some(Line::Tick(7)));
        for bad in [
            "",
            "tick",
            "tick ",
            "tick 07",
            "tick +7",
            "tick -7",
            "tick 7 ",
            "tick  7",
            " tick 7",
            "tick 7 8",
            "tick 18446744073709551616",
            "fail 0 256",
            "pool 0",
            "pool 0a",
            "pool ",
            "pool",
            "Tick 7",
            "ticks 7",
            "state 1 0 0 2",
            "row 1 0 4294967296 0",
            "fresh 1",
            "tick 7\r",
        ] {
            assert_eq!(parse(bad), None, "{bad:?}");
        }
    }
}
