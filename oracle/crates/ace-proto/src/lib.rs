//! Stand-in for the raw frame wrappers of `ace_proto`: bytes and nothing more, as the published extension
//! trait says of them ("the raw frame type carries no protocol knowledge").

pub mod common {
    /// Forced by `use ace_proto::common::{RawFrame, RawFrameMut}` beside `self.as_bytes()`.
    pub trait RawFrame {
        fn as_bytes(&self) -> &[u8];
    }

    /// Forced by `self.as_bytes_mut()`.
    pub trait RawFrameMut: RawFrame {
        fn as_bytes_mut(&mut self) -> &mut [u8];
    }
}

pub mod uds {
    use crate::common::{RawFrame, RawFrameMut};

    #[derive(Debug)]
    pub struct UdsFrame<'a> {
        bytes: &'a [u8],
    }

    impl<'a> UdsFrame<'a> {
        /// An inherent function, since the published server calls it with no trait in scope.
        pub fn from_slice(bytes: &'a [u8]) -> Self {
            Self { bytes }
        }
    }

    impl RawFrame for UdsFrame<'_> {
        fn as_bytes(&self) -> &[u8] {
            self.bytes
        }
    }

    #[derive(Debug)]
    pub struct UdsFrameMut<'a> {
        bytes: &'a mut [u8],
    }

    impl<'a> UdsFrameMut<'a> {
        pub fn from_slice(bytes: &'a mut [u8]) -> Self {
            Self { bytes }
        }
    }

    impl RawFrame for UdsFrameMut<'_> {
        fn as_bytes(&self) -> &[u8] {
            self.bytes
        }
    }

    impl RawFrameMut for UdsFrameMut<'_> {
        fn as_bytes_mut(&mut self) -> &mut [u8] {
            self.bytes
        }
    }
}
