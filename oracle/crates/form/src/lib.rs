//! The two text forms in which servers are compared, apart from any server: plain records for a
//! configuration, a state and the calls, the script form, the trace form, and what each prints.

pub mod cli;
pub mod numbers;
pub mod parse;
pub mod play;
pub mod print;
pub mod trace;
pub mod types;

pub use types::*;
