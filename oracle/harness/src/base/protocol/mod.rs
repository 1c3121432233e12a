//! `base/protocol/mod.rs` is not among SEEDS: module list of the
//! harness.

pub mod checksum;
pub mod command;
pub mod constant;
pub mod features;
pub mod message;
pub mod packet;

pub use checksum::Checksum;
pub use command::Command;
pub use message::{Message, MESSAGE_SIZE};
pub use packet::Packet;
