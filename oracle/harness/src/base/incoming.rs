//! Wrapper: libadb's file, byte for byte, and a child module that may read
//! its private field.

include!("incoming.seed.rs");

pub(crate) mod probe {
    use super::IncomingQueue;
    use crate::engine::QueuedOpen;

    pub(crate) fn queue(q: &IncomingQueue) -> Vec<QueuedOpen> {
        q.0.iter()
            .map(|p| QueuedOpen {
                remote: p.remote.raw(),
                credit: p.credit,
                destination: p.destination.to_vec(),
            })
            .collect()
    }
}
