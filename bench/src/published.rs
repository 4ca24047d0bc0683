//! The published server: its own positive and negative responses and its own `drain_outbox`. What it drains is a list of frames; the
//! records are written here. It has no test of a buffer's length and none of a queue's validity, so 5 and 10 are not its answers.

use ace_core::clock::Instant;
use ace_core::io::NodeAddress;
use ace_server::handler::ServerHandler;
use ace_server::nrc::BuiltinNrc;
use ace_server::security_provider::{SecurityError, SecurityProvider};
use ace_server::server::UdsServer;
use ace_server::server::access::{self, Meter, MeterConfig};

use crate::plain::write_record;
use crate::queue::Queue;

/// Pushing and draining asks the application nothing.
struct Mute;

impl ServerHandler for Mute {
    type Error = BuiltinNrc;

    fn read_did(&self, _: u16, _: &mut [u8]) -> Result<usize, BuiltinNrc> {
        unreachable!("nothing is read")
    }

    fn write_did(&mut self, _: u16, _: &[u8]) -> Result<(), BuiltinNrc> {
        unreachable!("nothing is written")
    }

    fn ecu_reset(&mut self, _: u8) -> Result<(), BuiltinNrc> {
        unreachable!("nothing is reset")
    }
}

impl SecurityProvider for Mute {
    fn generate_seed(&mut self, _: u8, _: &mut [u8]) -> Result<usize, SecurityError> {
        unreachable!("no seed is asked for")
    }

    fn validate_key(&self, _: u8, _: &[u8], _: &[u8]) -> Result<(), SecurityError> {
        unreachable!("no key is shown")
    }
}

pub struct Published {
    server: Meter<Mute, Mute>,
    /// Kept from drain to drain, as a caller would keep it.
    drained: ace_core::Vec<(NodeAddress, ace_core::Vec<u8, 256>), 16>,
}

/// Neither response looks at the time.
fn now() -> Instant {
    Instant::from_micros(0)
}

impl Published {
    pub fn waiting(&self) -> Vec<(u32, Vec<u8>)> {
        access::snapshot(&self.server).queue
    }
}

impl Queue for Published {
    const NAME: &str = "published Rust";

    fn new() -> Self {
        let config = MeterConfig::new(0x10, 0x7DF);
        Self {
            server: UdsServer::new(config, Mute, Mute, NodeAddress(0x10)),
            drained: ace_core::Vec::new(),
        }
    }

    // The only error that either response gives is a full outbox.
    #[inline(never)]
    fn confirm(&mut self, functional: bool, to: u32, sid: u8, payload: &[u8]) -> u8 {
        access::address(&mut self.server, functional);
        access::reply(&mut self.server, &NodeAddress(to), sid, payload, now()).map_or(3, |()| 0)
    }

    #[inline(never)]
    fn refuse(&mut self, functional: bool, to: u32, sid: u8, code: u8) -> u8 {
        access::address(&mut self.server, functional);
        access::refuse(&mut self.server, &NodeAddress(to), sid, code, now()).map_or(3, |()| 0)
    }

    /// The buffer must have room for the records.
    #[inline(never)]
    fn drain(&mut self, mut out: &mut [u8]) -> (u8, u8) {
        self.drained.clear();
        let frames = self.server.drain_outbox(&mut self.drained);
        for (to, frame) in &self.drained {
            out = write_record(out, to.0, frame);
        }
        (0, frames.expect("sixteen fit") as u8)
    }
}
