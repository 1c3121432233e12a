//! `connection/banner.rs` is not among SEEDS: a stand-in for
//! [`HostBanner`], and, since this is a child module of `connection`, the
//! harness's way to the private parts of [`Connection`].

use bytes::{Bytes, BytesMut};
use embedded_io::ErrorType;
use embedded_io_async::{Read, Write};

use super::accept::Incoming;
use super::handshake::Handshake;
use super::{Connection, ConnectionConfig};
use crate::base::auth::Authenticator;
use crate::base::channel::ChannelId;
use crate::base::channel_table::{self, ChannelTable};
use crate::base::incoming::{self, PendingOpen};
use crate::base::negotiated::Negotiated;
use crate::base::protocol::features::Feature;
use crate::base::protocol::Packet;
use crate::base::wire::recv_pkt;
use crate::engine::{QueuedOpen, SlotView};
use crate::error::Error;

/// What the host sends in its CNXN.
pub enum HostBanner<'a> {
    Features(&'a [Feature]),
    Raw(&'a [u8]),
}

impl HostBanner<'_> {
    pub(crate) fn to_bytes(&self) -> Bytes {
        match self {
            Self::Raw(raw) => Bytes::copy_from_slice(raw),
            Self::Features(list) => {
                let names: Vec<&str> = list.iter().map(Feature::wire_name).collect();
                Bytes::from(format!("host::features={}", names.join(",")))
            }
        }
    }

    pub(crate) fn lists(&self, feature: Feature) -> bool {
        match self {
            Self::Features(list) => list.contains(&feature),
            Self::Raw(raw) => crate::base::protocol::features::has_feature(
                raw,
                feature.wire_name().as_bytes(),
            ),
        }
    }
}

/// Never asked: the harness starts after the handshake.
struct NoAuth;

impl Authenticator for NoAuth {
    type Error = &'static str;

    async fn sign(&mut self, _token: &[u8]) -> Result<Vec<u8>, Self::Error> {
        Err("no key")
    }

    fn public_key(&self) -> &[u8] {
        &[]
    }
}

type Res<X, T> = Result<X, Error<<T as ErrorType>::Error>>;

impl<T> Connection<T>
where
    T: Read + Write,
{
    /// A connection as the handshake's last step makes it from the
    /// device's CNXN: `Handshake::assemble`, and in it `Negotiated::new`
    /// and `ChannelTable::new`, are the original's.
    pub(crate) fn probe_make(
        transport: T,
        config: ConnectionConfig,
        host_delayed: bool,
        cnxn: Packet,
    ) -> Res<Self, T> {
        let features: &[Feature] = if host_delayed {
            &[Feature::DelayedAck]
        } else {
            &[]
        };
        Handshake::new(transport, NoAuth, HostBanner::Features(features), config).assemble(cnxn)
    }

    /// A config past the clamps, and its ceiling.
    pub(crate) fn probe_config(
        channels: usize,
        max_payload: u32,
        max_rx: usize,
        initial_ack: u32,
    ) -> (ConnectionConfig, usize) {
        let config = super::config::probe::build(channels, max_payload, max_rx, initial_ack);
        (config, super::config::probe::ceiling(&config))
    }

    pub(crate) fn probe_negotiated(&self) -> &Negotiated {
        &self.negotiated
    }

    pub(crate) fn probe_recv_len(&self) -> usize {
        self.recv_buf.len()
    }

    pub(crate) fn probe_lend(&mut self, received: &[u8]) {
        self.recv_buf = BytesMut::from(received);
    }

    pub(crate) fn probe_clear_recv(&mut self) {
        self.recv_buf = BytesMut::new();
    }

    pub(crate) fn probe_table(&mut self) -> &mut ChannelTable {
        &mut self.table
    }

    pub(crate) fn probe_slots(&self) -> Vec<SlotView> {
        channel_table::probe::slots(&self.table)
    }

    pub(crate) fn probe_next_local(&self) -> u32 {
        channel_table::probe::next_local(&self.table)
    }

    pub(crate) fn probe_queue(&self) -> Vec<QueuedOpen> {
        incoming::probe::queue(&self.incoming)
    }

    pub(crate) fn probe_desynced(&self) -> bool {
        self.desync.check::<()>().is_err()
    }

    pub(crate) fn probe_budget(&self, ch: ChannelId) -> Option<usize> {
        self.table.get(ch).and_then(|s| s.budget())
    }

    pub(crate) fn probe_set_budget(&mut self, ch: ChannelId, budget: i64) -> bool {
        match self.table.get_mut(ch) {
            Some(slot) => {
                crate::base::slot::probe::set_budget(slot, budget);
                true
            }
            None => false,
        }
    }

    /// One turn of the loop in `accept_incoming`: a packet, dispatched.
    /// Public for bench/, which has a transport of its own.
    pub async fn probe_dispatch_one(&mut self) -> Res<(), T> {
        let pkt = recv_pkt(
            &mut self.transport,
            &mut self.recv_buf,
            self.negotiated.config.max_payload(),
        )
        .await?;
        self.dispatch(pkt).await
    }

    /// First half of `Connection::take_buffered`: settle, and send the
    /// OKAY if there is one. The answer is that OKAY's amount.
    pub(crate) async fn probe_settle(&mut self, ch: ChannelId, want: usize) -> Res<Option<usize>, T> {
        let ack = self.slot_mut(ch)?.settle_take(want);
        if let Some(ack) = ack {
            let _ = self.send_okay(ack).await;
        }
        Ok(ack.map(|a| a.len))
    }

    /// Second half of `Connection::take_buffered`.
    pub(crate) fn probe_take(&mut self, ch: ChannelId, buf: &mut [u8]) -> Res<Option<usize>, T> {
        self.slot_mut(ch)?.take_buffered(buf)
    }

    pub(crate) async fn probe_wait_ack(&mut self, ch: ChannelId) -> Res<(), T> {
        self.wait_ack(ch).await
    }

    pub(crate) async fn probe_await_open_ack(&mut self, ch: ChannelId) -> Res<ChannelId, T> {
        self.await_open_ack(ch).await
    }

    pub(crate) fn probe_take_front(&mut self) -> Option<PendingOpen> {
        self.incoming.pop_front()
    }

    /// The open that was taken, as `try_accept_incoming` hands it over.
    pub(crate) fn probe_offer(&mut self, pending: PendingOpen) -> Incoming<'_, T> {
        Incoming {
            conn: self,
            pending: Some(pending),
            reserved: None,
        }
    }
}
