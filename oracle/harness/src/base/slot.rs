//! Wrapper: libadb's file, byte for byte, and a child module that may read
//! its private fields.

include!("slot.seed.rs");

pub(crate) mod probe {
    use super::{ChannelSlot, ChannelState};
    use crate::engine::{SlotState, SlotView};

    pub(crate) fn view(place: usize, slot: &ChannelSlot) -> SlotView {
        SlotView {
            place,
            local: slot.local.raw(),
            remote: slot.remote.map(|r| r.raw()),
            state: match slot.state {
                ChannelState::Opening => SlotState::Opening,
                ChannelState::Open => SlotState::Open,
                ChannelState::Closed => SlotState::Closed,
            },
            failed: slot.failed.is_some(),
            budget: slot.send_budget,
            acked: slot.wrte_acked,
            unacked: slot.unacked,
            settled: slot.settled,
            data: slot.rx_buf.to_vec(),
        }
    }

    pub(crate) fn set_budget(slot: &mut ChannelSlot, budget: i64) {
        slot.send_budget = budget;
    }
}
