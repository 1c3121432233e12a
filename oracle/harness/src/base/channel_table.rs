//! Wrapper: libadb's file, byte for byte, and a child module that may read
//! its private fields.

include!("channel_table.seed.rs");

pub(crate) mod probe {
    use super::{ChannelId, ChannelTable};
    use crate::base::slot::probe::view;
    use crate::engine::SlotView;

    pub(crate) fn slots(table: &ChannelTable) -> Vec<SlotView> {
        table
            .slots
            .iter()
            .enumerate()
            .filter_map(|(place, s)| s.as_ref().map(|s| view(place, s)))
            .collect()
    }

    pub(crate) fn next_local(table: &ChannelTable) -> u32 {
        table.next_local_id
    }

    pub(crate) fn set_next_local(table: &mut ChannelTable, next: u32) {
        table.next_local_id = next;
    }

    /// What `allocate` would answer now: asked of the original, and its
    /// only effect, on the next local number, taken back.
    pub(crate) fn would_allocate(table: &mut ChannelTable) -> Option<ChannelId> {
        let next = table.next_local_id;
        let ch = table.allocate().ok();
        table.next_local_id = next;
        ch
    }

    /// The body of `ChannelTable::in_use`, which libadb has under
    /// `cfg(test)` only.
    pub(crate) fn in_use(table: &ChannelTable) -> usize {
        table.slots.iter().filter(|s| s.is_some()).count()
    }
}
