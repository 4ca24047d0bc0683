//! The five published files of the server, unchanged.

#[path = "../../../published/crates/ace-server/src/config.rs"]
pub mod config;
#[path = "../../../published/crates/ace-server/src/handler.rs"]
pub mod handler;
#[path = "../../../published/crates/ace-server/src/nrc.rs"]
pub mod nrc;
#[path = "../../../published/crates/ace-server/src/security_provider.rs"]
pub mod security_provider;

/// The published server, with a child module beside its text: a child sees its parent's private fields, so
/// the whole state can be read and set without a change to the file.
pub mod server {
    include!("../../../published/crates/ace-server/src/server.rs");

    pub mod access;
}
