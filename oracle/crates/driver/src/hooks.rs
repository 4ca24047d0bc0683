//! The hooks that the published server calls: each notes the act and where its arguments stand in the frame,
//! and gives back the handed-in outcome.

use std::cell::RefCell;
use std::rc::Rc;

use ace_server::handler::ServerHandler;
use ace_server::security_provider::{SecurityError, SecurityProvider};
use form::{Act, Outcome, Values};

use crate::code::Code;

/// Printed in place of an argument that is not where the rule says, or has another value: never a true place.
const ASTRAY: (usize, usize) = (9999, 9999);

/// What the hooks share with the driver during one call.
#[derive(Default)]
pub struct Desk {
    pub values: Values,
    pub outcome: Option<Outcome>,
    pub frame: Vec<u8>,
    /// Where the frame that the server reads lies in memory, to tell where a slice handed to a hook stands in it.
    pub address: usize,
    /// The seed held before the call, to tell whether the server hands it over whole.
    pub seed: Vec<u8>,
    pub asked: Vec<Act>,
}

impl Desk {
    /// The place of a slice that the server cut from the frame, seen from its address.
    fn part(&self, slice: &[u8]) -> (usize, usize) {
        if slice.is_empty() {
            return (0, 0);
        }
        let start = (slice.as_ptr() as usize).wrapping_sub(self.address);
        let inside = start < self.frame.len() && slice.len() <= self.frame.len() - start;
        if inside { (start, slice.len()) } else { ASTRAY }
    }

    /// The place of a byte that the server hands over by value, if that is the value there.
    fn byte(&self, at: usize, mask: u8, seen: u8) -> (usize, usize) {
        if self.frame.get(at).is_some_and(|b| b & mask == seen) {
            (at, 1)
        } else {
            ASTRAY
        }
    }

    fn identifier(&self, at: usize, seen: u16) -> (usize, usize) {
        if self.frame.get(at..at + 2) == Some(&seen.to_be_bytes()[..]) {
            (at, 2)
        } else {
            ASTRAY
        }
    }

    fn note(&mut self, number: u8, places: Vec<(usize, usize)>) -> Result<Vec<u8>, u8> {
        self.asked.push(Act { number, places });
        let outcome = self.outcome.as_ref().expect("only a request asks an act");
        outcome.limited(number).map(<[u8]>::to_vec)
    }
}

#[derive(Clone, Default)]
pub struct Hooks(pub Rc<RefCell<Desk>>);

/// Writes what fits and says the whole length: only a seed can be longer than its buffer, and the server
/// refuses such a length before it looks at the bytes.
fn give(bytes: &[u8], buf: &mut [u8]) -> usize {
    let n = bytes.len().min(buf.len());
    buf[..n].copy_from_slice(&bytes[..n]);
    bytes.len()
}

impl Hooks {
    fn act(
        &self,
        number: u8,
        places: impl FnOnce(&Desk) -> Vec<(usize, usize)>,
        buf: &mut [u8],
    ) -> Result<usize, Code> {
        let mut desk = self.0.borrow_mut();
        let places = places(&desk);
        desk.note(number, places)
            .map(|bytes| give(&bytes, buf))
            .map_err(Code)
    }
}

impl ServerHandler for Hooks {
    type Error = Code;

    fn read_did(&self, did: u16, buf: &mut [u8]) -> Result<usize, Code> {
        self.0
            .borrow()
            .values
            .read(did)
            .map(|bytes| give(bytes, buf))
            .map_err(Code)
    }

    fn write_did(&mut self, did: u16, data: &[u8]) -> Result<(), Code> {
        self.act(0x2E, |d| vec![d.identifier(1, did), d.part(data)], &mut [])
            .map(|_| ())
    }

    fn ecu_reset(&mut self, kind: u8) -> Result<(), Code> {
        self.act(0x11, |d| vec![d.byte(1, 0x7F, kind)], &mut [])
            .map(|_| ())
    }

    fn routine_control(
        &mut self,
        id: u16,
        sub: u8,
        data: &[u8],
        buf: &mut [u8],
    ) -> Result<usize, Code> {
        let places = |d: &Desk| vec![d.byte(1, 0x7F, sub), d.identifier(2, id), d.part(data)];
        self.act(0x31, places, buf)
    }

    fn communication_control(&mut self, control: u8, comm: u8) -> Result<usize, Code> {
        self.act(
            0x28,
            |d| vec![d.byte(1, 0x7F, control), d.byte(2, 0xFF, comm)],
            &mut [],
        )
    }

    fn request_download(
        &mut self,
        address: &[u8],
        size: &[u8],
        format: u8,
        encrypting: u8,
        buf: &mut [u8],
    ) -> Result<usize, Code> {
        // The whole format byte is one argument; the server hands 0 for the other half.
        let format = |d: &Desk| {
            if encrypting == 0 {
                d.byte(1, 0xFF, format)
            } else {
                ASTRAY
            }
        };
        self.act(
            0x34,
            |d| vec![format(d), d.part(address), d.part(size)],
            buf,
        )
    }

    fn io_control(
        &mut self,
        did: u16,
        parameter: u8,
        state: &[u8],
        buf: &mut [u8],
    ) -> Result<usize, Code> {
        let places = |d: &Desk| {
            vec![
                d.identifier(1, did),
                d.byte(3, 0xFF, parameter),
                d.part(state),
            ]
        };
        self.act(0x2F, places, buf)
    }

    fn transfer_data(&mut self, counter: u8, data: &[u8], buf: &mut [u8]) -> Result<usize, Code> {
        self.act(0x36, |d| vec![d.byte(1, 0xFF, counter), d.part(data)], buf)
    }

    fn request_transfer_exit(&mut self, record: &[u8], buf: &mut [u8]) -> Result<usize, Code> {
        self.act(0x37, |d| vec![d.part(record)], buf)
    }

    fn request_file_transfer(
        &mut self,
        operation: u8,
        path: &[u8],
        buf: &mut [u8],
    ) -> Result<usize, Code> {
        self.act(
            0x38,
            |d| vec![d.byte(1, 0xFF, operation), d.part(path)],
            buf,
        )
    }
}

impl SecurityProvider for Hooks {
    fn generate_seed(&mut self, level: u8, buf: &mut [u8]) -> Result<usize, SecurityError> {
        let places = |d: &Desk| vec![d.byte(1, 0x7F, level)];
        self.act(0x27, places, buf)
            .map_err(|_| SecurityError::DelayNotExpired)
    }

    fn validate_key(&self, level: u8, seed: &[u8], key: &[u8]) -> Result<(), SecurityError> {
        let kind = |d: &Desk| {
            if d.seed == seed {
                d.byte(1, 0x7F, level.wrapping_add(1))
            } else {
                ASTRAY
            }
        };
        let asked = self.act(0x27, |d| vec![kind(d), d.part(key)], &mut []);
        asked.map(|_| ()).map_err(|_| SecurityError::InvalidKey)
    }
}
