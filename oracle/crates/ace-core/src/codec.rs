//! The reading half of the frame codec.

/// Forced by `ServiceIdentifier::decode(&mut buf)` with `buf: &[u8]`, followed by `.ok()`.
pub trait FrameRead<'a>: Sized {
    type Error;

    fn decode(buf: &mut &'a [u8]) -> Result<Self, Self::Error>;
}

/// Guessed: the published callers turn every decode error into `None`, so its shape is never seen.
#[derive(Debug, Clone, Copy, PartialEq, Eq)]
pub enum CodecError {
    Empty,
    UnknownId(u8),
}
