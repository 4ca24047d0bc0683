//! Stand-in for typed messages. The server never asks for one ("typed decode is used only where structured
//! field access is needed", and no published handler does), so these only let the published files compile.

use ace_core::codec::{CodecError, FrameRead};

use crate::error::UdsError;

#[path = "../../../../published/crates/ace-uds/src/message/service.rs"]
pub mod service;

pub use service::ServiceIdentifier;

/// Guessed and never called by the server: the raw bytes.
#[derive(Debug, Clone, Copy, PartialEq, Eq)]
pub struct UdsMessage<'a>(pub &'a [u8]);

/// Guessed and never called by the server.
pub fn decode_message(bytes: &[u8]) -> Result<UdsMessage<'_>, UdsError> {
    Ok(UdsMessage(bytes))
}

/// Guessed and never called by the server: the code byte.
#[derive(Debug, Clone, Copy, PartialEq, Eq)]
pub struct NegativeResponseCode(pub u8);

impl<'a> FrameRead<'a> for NegativeResponseCode {
    type Error = UdsError;

    fn decode(buf: &mut &'a [u8]) -> Result<Self, UdsError> {
        buf.first()
            .map(|b| Self(*b))
            .ok_or(UdsError::Codec(CodecError::Empty))
    }
}
