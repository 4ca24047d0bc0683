//! Plain records. Times and spans are whole milliseconds.

#[derive(Debug, Clone, Default, PartialEq, Eq)]
pub struct Config {
    pub physical: u16,
    pub functional: u16,
    pub sessions: Vec<SessionRow>,
    pub services: Vec<ServiceRow>,
    pub identifiers: Vec<IdentifierRow>,
    pub levels: Vec<LevelRow>,
}

#[derive(Debug, Clone, PartialEq, Eq)]
pub struct SessionRow {
    pub kind: u8,
    pub p2: u64,
    pub p2_star: u64,
    pub s3: u64,
}

#[derive(Debug, Clone, PartialEq, Eq)]
pub struct ServiceRow {
    pub sid: u8,
    pub level: u8,
    pub sessions: Vec<u8>,
}

#[derive(Debug, Clone, PartialEq, Eq)]
pub struct IdentifierRow {
    pub id: u16,
    pub level: u8,
    pub periodic: bool,
    pub minimum: u64,
    pub readable: Vec<u8>,
    pub writable: Vec<u8>,
}

#[derive(Debug, Clone, PartialEq, Eq)]
pub struct LevelRow {
    pub level: u8,
    pub attempts: u8,
    pub lockout: u64,
    pub seed: u64,
    pub key: u64,
}

#[derive(Debug, Clone, PartialEq, Eq)]
pub struct Pending {
    pub dst: u32,
    pub sid: u8,
    pub deadline: u64,
}

#[derive(Debug, Clone, PartialEq, Eq)]
pub struct Entry {
    pub id: u16,
    pub client: u32,
    pub interval: u64,
    pub next: u64,
}

#[derive(Debug, Clone, PartialEq, Eq)]
pub struct State {
    pub session: u8,
    pub level: u8,
    pub last_rx: u64,
    pub functional: bool,
    pub pending: Option<Pending>,
    pub seed_level: u8,
    pub seed: Vec<u8>,
    pub counts: Vec<(u8, u8)>,
    pub locks: Vec<(u8, u64)>,
    pub periodic: Vec<Entry>,
    pub queue: Vec<(u32, Vec<u8>)>,
}

impl State {
    pub fn fresh() -> Self {
        Self {
            session: 1,
            level: 0,
            last_rx: 0,
            functional: false,
            pending: None,
            seed_level: 0,
            seed: Vec::new(),
            counts: Vec::new(),
            locks: Vec::new(),
            periodic: Vec::new(),
            queue: Vec::new(),
        }
    }
}

#[derive(Debug, Clone, PartialEq, Eq)]
pub struct Server {
    pub config: Config,
    pub state: State,
}

impl Server {
    pub fn fresh(config: Config) -> Self {
        Self {
            config,
            state: State::fresh(),
        }
    }
}

/// One row of the value table; `start` and `length` are over the pool.
#[derive(Debug, Clone, PartialEq, Eq)]
pub struct ValueRow {
    pub id: u16,
    pub error: u8,
    pub start: u64,
    pub length: u64,
}

#[derive(Debug, Clone, Default, PartialEq, Eq)]
pub struct Values {
    pub rows: Vec<ValueRow>,
    pub pool: Vec<u8>,
}

impl Values {
    /// The bytes of the first row for `id`, or an error byte. A missing row, one outside the pool and one
    /// above 256 bytes all read as 0x22, also where the row has an error byte of its own.
    pub fn read(&self, id: u16) -> Result<&[u8], u8> {
        let row = self.rows.iter().find(|r| r.id == id).ok_or(0x22)?;
        if row.length > 256 || row.start + row.length > self.pool.len() as u64 {
            return Err(0x22);
        }
        if row.error != 0 {
            return Err(row.error);
        }
        Ok(&self.pool[row.start as usize..(row.start + row.length) as usize])
    }
}

/// What an act is told to give back: an error byte, or with 0 the bytes.
#[derive(Debug, Clone, PartialEq, Eq)]
pub struct Outcome {
    pub error: u8,
    pub bytes: Vec<u8>,
}

impl Outcome {
    /// The outcome as an act meets it: more bytes than the act may give count as error 0x22.
    pub fn limited(&self, act: u8) -> Result<&[u8], u8> {
        let limit = if act == 0x34 { 64 } else { 256 };
        match self.error {
            0 if self.bytes.len() > limit => Err(0x22),
            0 => Ok(&self.bytes),
            error => Err(error),
        }
    }
}

#[derive(Debug, Clone, PartialEq, Eq)]
pub struct Request {
    pub time: u64,
    pub src: u32,
    pub dst: u32,
    pub frame: Vec<u8>,
}

/// An act that was asked: its service byte (0 for none) and its arguments as start and length in the frame.
#[derive(Debug, Clone, Default, PartialEq, Eq)]
pub struct Act {
    pub number: u8,
    pub places: Vec<(usize, usize)>,
}

#[derive(Debug, Clone, Default, PartialEq, Eq)]
pub struct Answer {
    pub result: u8,
    pub error: u8,
    pub act: Act,
}

impl Answer {
    pub fn of(result: u8) -> Self {
        Self {
            result,
            ..Self::default()
        }
    }
}

/// A server to compare: each call changes the plain state handed to it and says what it answered.
pub trait Engine {
    fn fresh(&mut self, config: &Config) -> (u8, Server);
    fn request(&mut self, s: &mut Server, v: &Values, r: &Request, o: &Outcome) -> Answer;
    fn question(&mut self, s: &Server, v: &Values, r: &Request) -> Answer;
    fn tick(&mut self, s: &mut Server, v: &Values, time: u64) -> Answer;
    fn complete(&mut self, s: &mut Server, time: u64, bytes: &[u8]) -> Answer;
    fn fail(&mut self, s: &mut Server, time: u64, code: u8) -> Answer;
    /// Result and number of frames written.
    fn drain(&mut self, s: &mut Server, buffer: &mut [u8]) -> (u8, usize);
}

#[cfg(test)]
mod tests {
    use super::*;

    fn read(rows: &[(u16, u8, u64, u64)], pool: usize) -> Result<usize, u8> {
        let row = |&(id, error, start, length): &(u16, u8, u64, u64)| ValueRow {
            id,
            error,
            start,
            length,
        };
        let table = Values {
            rows: rows.iter().map(row).collect(),
            pool: vec![7; pool],
        };
        table.read(5).map(<[u8]>::len)
    }

    #[test]
    fn the_first_row_within_the_pool_is_read() {
        assert_eq!(read(&[(5, 0, 0, 256)], 256), Ok(256));
        assert_eq!(read(&[(4, 0, 0, 1), (5, 0, 2, 3), (5, 0, 0, 1)], 5), Ok(3));
        assert_eq!(read(&[(5, 0, 5, 0)], 5), Ok(0));
        assert_eq!(read(&[(5, 0x78, 0, 5)], 5), Err(0x78));
    }

    #[test]
    fn all_other_rows_read_as_22() {
        assert_eq!(read(&[(4, 0, 0, 1)], 5), Err(0x22));
        assert_eq!(read(&[(5, 0, 0, 257)], 300), Err(0x22));
        assert_eq!(read(&[(5, 0, 3, 3)], 5), Err(0x22));
        assert_eq!(read(&[(5, 0, 6, 0)], 5), Err(0x22));
        assert_eq!(read(&[(5, 0x78, 3, 3)], 5), Err(0x22));
        assert_eq!(read(&[(5, 0x78, 0, 257)], 300), Err(0x22));
    }

    #[test]
    fn an_act_gives_at_most_256_bytes_and_34_at_most_64() {
        let met = |act, error, length: usize| {
            let bytes = vec![0; length];
            Outcome { error, bytes }.limited(act).map(<[u8]>::len)
        };
        assert_eq!(met(0x31, 0, 256), Ok(256));
        assert_eq!(met(0x31, 0, 257), Err(0x22));
        assert_eq!(met(0x34, 0, 64), Ok(64));
        assert_eq!(met(0x34, 0, 65), Err(0x22));
        assert_eq!(met(0x31, 0x78, 300), Err(0x78));
    }
}
