//! libadb's own `Connection`, polled once a call over a transport that has its bytes at hand.

use crate::frames::*;
use core::future::{poll_fn, Future};
use core::pin::pin;
use core::task::{Context, Poll, Waker};
use libadb::base::auth::Authenticator;
use libadb::{ChannelId, Connection, ConnectionConfig, Feature, HostBanner};

#[derive(Debug)]
pub enum Never {}

impl embedded_io::Error for Never {
    fn kind(&self) -> embedded_io::ErrorKind {
        match *self {}
    }
}

/// Reads copy from what has arrived, and park when that is used up; writes copy to `sink`, where a socket's would copy to the
/// kernel, and end there.
pub struct Memory {
    at: *const u8,
    left: usize,
    sink: Vec<u8>,
    record: Option<Vec<u8>>,
}

impl embedded_io::ErrorType for Memory {
    type Error = Never;
}

impl embedded_io_async::Read for Memory {
    #[inline]
    async fn read(&mut self, buf: &mut [u8]) -> Result<usize, Never> {
        poll_fn(|_| {
            let n = buf.len().min(self.left);
            if n == 0 {
                return Poll::Pending;
            }
            // SAFETY: `left` bytes are at `at`, until the next `feed`.
            unsafe {
                core::ptr::copy_nonoverlapping(self.at, buf.as_mut_ptr(), n);
                self.at = self.at.add(n);
            }
            self.left -= n;
            Poll::Ready(Ok(n))
        })
        .await
    }
}

impl embedded_io_async::Write for Memory {
    #[inline]
    async fn write(&mut self, buf: &[u8]) -> Result<usize, Never> {
        match &mut self.record {
            Some(record) => record.extend_from_slice(buf),
            None => self.sink[..buf.len()].copy_from_slice(buf),
        }
        Ok(buf.len())
    }

    #[inline]
    async fn flush(&mut self) -> Result<(), Never> {
        Ok(())
    }
}

/// Never asked: the device's first answer is its CNXN.
struct NoAuth;

impl Authenticator for NoAuth {
    type Error = &'static str;

    async fn sign(&mut self, _: &[u8]) -> Result<Vec<u8>, Self::Error> {
        Err("no key")
    }

    fn public_key(&self) -> &[u8] {
        &[]
    }
}

#[inline(always)]
fn once<F: Future>(future: F) -> Poll<F::Output> {
    pin!(future).poll(&mut Context::from_waker(Waker::noop()))
}

pub struct Theirs {
    case: Case,
    conn: Connection<Memory>,
    channels: Vec<ChannelId>,
    pub buf: Vec<u8>,
}

impl Theirs {
    /// A connection with the row's channels open, each of which has its first write behind it.
    pub fn make(case: Case, record: bool) -> Self {
        let banner: &[u8] = if case.delayed { b"device::features=delayed_ack" } else { b"device::features=shell_v2" };
        let features: &[Feature] = if case.delayed { &[Feature::DelayedAck] } else { &[] };
        let mut cnxn = Vec::new();
        put_frame(&mut cnxn, b"CNXN", case.version(), MAX_PAYLOAD as u32, banner, case.sums);
        let transport = Memory {
            at: cnxn.as_ptr(),
            left: cnxn.len(),
            sink: vec![0; MAX_PAYLOAD],
            record: None,
        };
        let config = ConnectionConfig::new()
            .with_max_channels(CHANNELS)
            .with_max_payload(MAX_PAYLOAD as u32)
            .with_max_rx_per_channel(MAX_RX)
            .with_initial_ack_bytes(INITIAL_ACK);
        let made = once(Connection::connect(transport, NoAuth, HostBanner::Features(features), config));
        let Poll::Ready(Ok(conn)) = made else { panic!("connect") };
        let size = case.size.max(1);
        let mut it = Theirs { case, conn, channels: Vec::new(), buf: vec![0; size] };
        it.conn.transport_mut().record = record.then(Vec::new);
        assert_eq!(it.conn.delayed_ack(), case.delayed);
        assert_eq!(it.conn.protocol_version(), case.version());
        assert_eq!(it.conn.config().max_payload() as usize, MAX_PAYLOAD);
        for i in 0..case.open {
            let okay = opening_okay(case, i);
            it.feed(&okay);
            let Poll::Ready(Ok(ch)) = once(it.conn.open_channel(b"bench:\0")) else { panic!("open {i}") };
            assert_eq!(ch.local_id(), 1 + i as u32);
            it.channels.push(ch);
        }
        if case.kind == Kind::Write && !case.delayed {
            for i in 0..case.open {
                it.write(i, b"first");
            }
        }
        it
    }

    pub fn record(&mut self) -> Vec<u8> {
        self.conn.transport_mut().record.take().unwrap_or_default()
    }

    #[inline(always)]
    fn feed(&mut self, bytes: &[u8]) {
        let transport = self.conn.transport_mut();
        assert!(transport.left == 0);
        transport.at = bytes.as_ptr();
        transport.left = bytes.len();
    }

    #[inline(always)]
    fn dispatch(&mut self) {
        let done = once(self.conn.probe_dispatch_one());
        assert!(matches!(done, Poll::Ready(Ok(()))), "dispatch");
    }

    #[inline(always)]
    fn read(&mut self, i: usize) {
        let done = once(self.conn.read_channel(self.channels[i], &mut self.buf));
        assert!(matches!(done, Poll::Ready(Ok(n)) if n == self.case.size), "read");
    }

    #[inline(always)]
    fn write(&mut self, i: usize, data: &[u8]) {
        let done = once(self.conn.write_channel(self.channels[i], data));
        assert!(matches!(done, Poll::Ready(Ok(()))), "write");
    }

    /// As `Ours::run`; a round's frames arrive together.
    pub fn run(&mut self, round: &Round, rounds: usize, mut each: impl FnMut(usize, &[u8])) {
        for _ in 0..rounds {
            self.feed(&round.frames);
            for i in 0..self.case.open {
                match self.case.kind {
                    Kind::DispatchRead => {
                        self.dispatch();
                        self.read(i);
                    }
                    Kind::DirectRead => self.read(i),
                    Kind::Write => self.write(i, &round.data[i]),
                    Kind::DispatchNothing => self.dispatch(),
                    Kind::ReadNothing => {
                        let done = once(self.conn.read_channel(self.channels[i], &mut self.buf));
                        assert!(done.is_pending(), "read");
                    }
                    Kind::FrontNothing => {
                        assert!(matches!(self.conn.try_accept_incoming(), Ok(None)), "try_accept_incoming");
                    }
                }
                each(i, &self.buf);
            }
        }
    }
}
