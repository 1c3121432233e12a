//! libadb's `sync/format.rs`, unchanged, beside the error stand-in.
pub mod format;

pub use crate::standins::sync::SyncError;
