//! Stand-in for what the published files take from `ace_core`; `clock` is the published file itself.

#[path = "../../../published/crates/ace-core/src/clock.rs"]
pub mod clock;
pub mod codec;
pub mod io;
pub mod storage;

// The published files write `ace_core::Vec` and `ace_core::AddressMode`.
pub use io::AddressMode;
pub use storage::Vec;
