//! Offsets and masks, each forced by the published comment quoted beside it.

/// "Frame must have at least a SID byte"; "payload bytes of the frame, excluding the SID byte".
pub const MIN_FRAME_LEN: usize = 1;

/// "a sub-function byte at offset 1".
pub const SUB_FUNCTION_OFFSET: usize = 1;

/// "the frame must be long enough to contain it", it being the sub-function byte.
pub const MIN_SUB_FUNCTION_FRAME_LEN: usize = 2;

/// "`bit 7 = 1`".
pub const SUPPRESS_POSITIVE_RESPONSE_MASK: u8 = 0x80;

/// "the sub-function value with the suppress positive response bit masked off".
pub const SUB_FUNCTION_VALUE_MASK: u8 = 0x7F;

/// "`[0x7F, RequestedSID, NRC]`"; the server calls nothing that reads these two.
pub const NEGATIVE_RESPONSE_REQUESTED_SID_OFFSET: usize = 1;
pub const NEGATIVE_RESPONSE_NRC_OFFSET: usize = 2;
