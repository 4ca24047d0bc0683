//! Stand-in for the unpublished parts of `ace_uds`; `ext` and `message::service` are the published files.

pub mod constants;
pub mod error;
#[path = "../../../published/crates/ace-uds/src/ext/mod.rs"]
pub mod ext;
pub mod message;

// The published service list writes `crate::UdsError`.
pub use error::UdsError;
