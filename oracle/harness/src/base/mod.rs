//! `base/mod.rs` is not among SEEDS: module list of the harness.

pub mod auth;
pub mod channel;
pub(crate) mod channel_table; // wrapper, includes channel_table.seed.rs
pub mod connection;
pub mod device_banner;
pub(crate) mod ids;
pub(crate) mod incoming; // wrapper, includes incoming.seed.rs
pub(crate) mod negotiated;
pub mod protocol;
pub(crate) mod send_queue;
pub mod session;
pub(crate) mod slot; // wrapper, includes slot.seed.rs
pub(crate) mod wire;

pub(crate) use crate::standins::protobuf;
