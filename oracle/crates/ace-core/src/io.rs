//! Addresses and inbound frames.

/// Forced by `frame.dst.0 == u32::from(..)` (a public u32), `.clone()` and `e.client == client`.
#[derive(Debug, Clone, PartialEq, Eq)]
pub struct NodeAddress(pub u32);

/// Forced by `frame.src.clone()`, `frame.dst.0`, `frame.data.first()` and `UdsFrame::from_slice(frame.data)`.
#[derive(Debug)]
pub struct InboundFrame<'a> {
    pub src: NodeAddress,
    pub dst: NodeAddress,
    pub data: &'a [u8],
}

/// Forced by `self.inbound == AddressMode::Functional` and by the only two values assigned.
#[derive(Debug, Clone, Copy, PartialEq, Eq)]
pub enum AddressMode {
    Physical,
    Functional,
}
