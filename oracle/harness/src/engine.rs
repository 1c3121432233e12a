//! Runs one call at a time against the original Rust.

use core::future::Future;
use core::pin::{pin, Pin};
use core::task::{Context, Poll, Waker};
use std::fmt::Write as _;
use std::panic::{catch_unwind, AssertUnwindSafe};

use bytes::BytesMut;

use crate::base::channel::ChannelId;
use crate::base::channel_table;
use crate::base::connection::Connection;
use crate::base::incoming::PendingOpen;
use crate::base::protocol::command::Command;
use crate::base::protocol::features::has_feature;
use crate::base::protocol::Packet;
use crate::error::{Error, ProtocolError};
use crate::pipe::{Never, Pipe};
use crate::text::{bytes, hex, number, number32};

// ---------------------------------------------------------------- calls

#[derive(Debug, Clone)]
pub struct Make {
    pub channels: usize,
    pub max_payload: u32,
    pub max_rx: usize,
    pub initial_ack: u32,
    pub cnxn_arg0: u32,
    pub cnxn_arg1: u32,
    pub host_delayed: bool,
    pub device_delayed: bool,
}

#[derive(Debug, Clone)]
pub enum Call {
    Make(Make),
    SetNextLocal(u32),
    SetBudget(usize, u32, i64),
    Open(Vec<u8>, Vec<u8>),
    Dispatch(Vec<u8>),
    Settle(usize, u32, usize),
    Take(usize, u32, usize),
    Read(usize, u32, usize, Vec<u8>),
    Write(usize, u32, Vec<u8>, Vec<u8>),
    Close(usize, u32),
    TakeFront,
    Accept,
    Reject,
    LetGo,
    InUse,
    Numbers(usize, u32),
    Totals,
    HasFeature(Vec<u8>, Vec<u8>),
    Decode(u32, Vec<u8>),
    Missing(Vec<u8>),
}

fn size(s: &str) -> Result<usize, String> {
    usize::try_from(number(s)?).map_err(|e| e.to_string())
}

fn flag(s: &str) -> Result<bool, String> {
    match s {
        "0" => Ok(false),
        "1" => Ok(true),
        _ => Err(format!("not 0 or 1: {s}")),
    }
}

impl Call {
    /// `Ok(None)` for an empty line or a comment.
    pub fn parse(line: &str) -> Result<Option<Call>, String> {
        let line = line.split('#').next().unwrap_or("");
        let t: Vec<&str> = line.split_whitespace().collect();
        let Some((name, a)) = t.split_first() else {
            return Ok(None);
        };
        let want = |n: usize| {
            if a.len() == n {
                Ok(())
            } else {
                Err(format!("{name} takes {n} arguments, {} given", a.len()))
            }
        };
        let call = match *name {
            "make" => {
                want(8)?;
                Call::Make(Make {
                    channels: size(a[0])?,
                    max_payload: number32(a[1])?,
                    max_rx: size(a[2])?,
                    initial_ack: number32(a[3])?,
                    cnxn_arg0: number32(a[4])?,
                    cnxn_arg1: number32(a[5])?,
                    host_delayed: flag(a[6])?,
                    device_delayed: flag(a[7])?,
                })
            }
            "set_next_local" => {
                want(1)?;
                Call::SetNextLocal(number32(a[0])?)
            }
            "set_budget" => {
                want(3)?;
                let budget = a[2].parse().map_err(|_| format!("not an i64: {}", a[2]))?;
                Call::SetBudget(size(a[0])?, number32(a[1])?, budget)
            }
            "open" => {
                want(2)?;
                Call::Open(bytes(a[0])?, bytes(a[1])?)
            }
            "dispatch" => {
                want(1)?;
                Call::Dispatch(bytes(a[0])?)
            }
            "settle" => {
                want(3)?;
                Call::Settle(size(a[0])?, number32(a[1])?, size(a[2])?)
            }
            "take" => {
                want(3)?;
                Call::Take(size(a[0])?, number32(a[1])?, size(a[2])?)
            }
            "read" => {
                want(4)?;
                Call::Read(size(a[0])?, number32(a[1])?, size(a[2])?, bytes(a[3])?)
            }
            "write" => {
                want(4)?;
                Call::Write(size(a[0])?, number32(a[1])?, bytes(a[2])?, bytes(a[3])?)
            }
            "close" => {
                want(2)?;
                Call::Close(size(a[0])?, number32(a[1])?)
            }
            "take_front" => {
                want(0)?;
                Call::TakeFront
            }
            "accept" => {
                want(0)?;
                Call::Accept
            }
            "reject" => {
                want(0)?;
                Call::Reject
            }
            "let_go" => {
                want(0)?;
                Call::LetGo
            }
            "in_use" => {
                want(0)?;
                Call::InUse
            }
            "numbers" => {
                want(2)?;
                Call::Numbers(size(a[0])?, number32(a[1])?)
            }
            "totals" => {
                want(0)?;
                Call::Totals
            }
            "has_feature" => {
                want(2)?;
                Call::HasFeature(bytes(a[0])?, bytes(a[1])?)
            }
            "decode" => {
                want(2)?;
                Call::Decode(number32(a[0])?, bytes(a[1])?)
            }
            "missing" => {
                want(1)?;
                Call::Missing(bytes(a[0])?)
            }
            _ => return Err(format!("no such call: {name}")),
        };
        Ok(Some(call))
    }

    /// The call as a script line, bytes in plain hex.
    pub fn line(&self) -> String {
        match self {
            Call::Make(m) => format!(
                "make {} {} {} {} {:#x} {} {} {}",
                m.channels,
                m.max_payload,
                m.max_rx,
                m.initial_ack,
                m.cnxn_arg0,
                m.cnxn_arg1,
                m.host_delayed as u8,
                m.device_delayed as u8
            ),
            Call::SetNextLocal(n) => format!("set_next_local {n}"),
            Call::SetBudget(s, l, b) => format!("set_budget {s} {l} {b}"),
            Call::Open(d, r) => format!("open {} {}", hex(d), hex(r)),
            Call::Dispatch(r) => format!("dispatch {}", hex(r)),
            Call::Settle(s, l, w) => format!("settle {s} {l} {w}"),
            Call::Take(s, l, n) => format!("take {s} {l} {n}"),
            Call::Read(s, l, n, r) => format!("read {s} {l} {n} {}", hex(r)),
            Call::Write(s, l, d, r) => format!("write {s} {l} {} {}", hex(d), hex(r)),
            Call::Close(s, l) => format!("close {s} {l}"),
            Call::TakeFront => "take_front".into(),
            Call::Accept => "accept".into(),
            Call::Reject => "reject".into(),
            Call::LetGo => "let_go".into(),
            Call::InUse => "in_use".into(),
            Call::Numbers(s, l) => format!("numbers {s} {l}"),
            Call::Totals => "totals".into(),
            Call::HasFeature(t, n) => format!("has_feature {} {}", hex(t), hex(n)),
            Call::Decode(l, r) => format!("decode {l} {}", hex(r)),
            Call::Missing(r) => format!("missing {}", hex(r)),
        }
    }
}

// ---------------------------------------------------------------- state

#[derive(Debug, Clone, Copy, PartialEq, Eq)]
pub enum SlotState {
    Opening,
    Open,
    Closed,
}

#[derive(Debug, Clone, PartialEq, Eq)]
pub struct SlotView {
    pub place: usize,
    pub local: u32,
    pub remote: Option<u32>,
    pub state: SlotState,
    pub failed: bool,
    pub budget: i64,
    pub acked: bool,
    pub unacked: usize,
    pub settled: usize,
    pub data: Vec<u8>,
}

#[derive(Debug, Clone, PartialEq, Eq)]
pub struct QueuedOpen {
    pub remote: u32,
    pub credit: u32,
    pub destination: Vec<u8>,
}

#[derive(Debug, Clone, PartialEq, Eq)]
pub struct Snapshot {
    pub next: u32,
    pub slots: Vec<SlotView>,
    pub queue: Vec<QueuedOpen>,
}

fn list(items: Vec<String>) -> String {
    if items.is_empty() {
        "-".into()
    } else {
        items.join(";")
    }
}

impl Snapshot {
    fn digest(&self) -> String {
        let slots = self
            .slots
            .iter()
            .map(|s| {
                format!(
                    "{}:{}:{}:{}{}:{}:{}:{}:{}:{}",
                    s.place,
                    s.local,
                    s.remote.map_or("none".into(), |r| r.to_string()),
                    match s.state {
                        SlotState::Opening => "opening",
                        SlotState::Open => "open",
                        SlotState::Closed => "closed",
                    },
                    if s.failed { "!" } else { "" },
                    s.budget,
                    s.acked as u8,
                    s.unacked,
                    s.settled,
                    hex(&s.data)
                )
            })
            .collect();
        let queue = self
            .queue
            .iter()
            .map(|q| format!("{}:{}:{}", q.remote, q.credit, hex(&q.destination)))
            .collect();
        format!("next={} slots={} queue={}", self.next, list(slots), list(queue))
    }
}

#[derive(Debug, Clone)]
pub struct Outcome {
    pub answer: String,
    pub used: usize,
    pub out: Vec<u8>,
    pub got: Vec<u8>,
    /// Absent without a connection, and in kept mode while the open's
    /// future holds the connection.
    pub state: Option<Snapshot>,
    pub made: bool,
    pub waiting: Option<(usize, u32)>,
}

impl Outcome {
    pub fn line(&self) -> String {
        let mut s = format!(
            "{} used={} out={} got={} ",
            self.answer,
            self.used,
            hex(&self.out),
            hex(&self.got)
        );
        match (&self.state, self.made) {
            (Some(state), _) => s.push_str(&state.digest()),
            (None, true) => s.push_str("next=? slots=? queue=?"),
            (None, false) => s.push_str("next=- slots=- queue=-"),
        }
        match self.waiting {
            Some((slot, local)) => {
                let _ = write!(s, " wait={slot}:{local}");
            }
            None => s.push_str(" wait=-"),
        }
        s
    }
}

// --------------------------------------------------------------- engine

type Conn = Connection<Pipe>;
type OpenFuture = Pin<Box<dyn Future<Output = Result<ChannelId, Error<Never>>>>>;

fn poll_once<F: Future>(fut: F) -> Option<F::Output> {
    let mut fut = pin!(fut);
    match fut.as_mut().poll(&mut Context::from_waker(Waker::noop())) {
        Poll::Ready(v) => Some(v),
        Poll::Pending => None,
    }
}

pub fn command_name(c: Command) -> String {
    String::from_utf8_lossy(&u32::from(c).to_le_bytes()).into_owned()
}

/// The refusal's number in the scope document.
fn refusal<E: core::fmt::Debug>(e: &Error<E>) -> String {
    match e {
        Error::Protocol(ProtocolError::InvalidCommand(w)) => format!("refused 1 word={w}"),
        Error::Protocol(ProtocolError::InvalidMagic) => "refused 2".into(),
        Error::Protocol(ProtocolError::PayloadTooLarge) => "refused 3".into(),
        Error::Protocol(ProtocolError::InvalidChecksum) => "refused 4".into(),
        Error::Protocol(ProtocolError::ShortReadyPayload) => "refused 5".into(),
        Error::Protocol(ProtocolError::UnexpectedCommand(c)) => {
            format!("refused 6 command={}", command_name(*c))
        }
        Error::ChannelClosed => "refused 10".into(),
        Error::ChannelRxOverflow => "refused 11".into(),
        Error::NoFreeChannels => "refused 12".into(),
        other => format!("error unexpected:{other:?}"),
    }
}

/// Filler of the reader's buffer, to see that nothing past the count moves.
const FILL: u8 = 0xa5;

pub struct Oracle {
    /// From `Box::into_raw`; null before the first make. Not touched while
    /// `kept` holds a future made from it.
    conn: *mut Conn,
    pipe: Pipe,
    waiting: Option<ChannelId>,
    /// The open that take_front took, until the next call.
    offer: Option<PendingOpen>,
    /// Kept mode only: the very future `open_channel` returned.
    kept: Option<OpenFuture>,
    route: Route,
    config: Option<Make>,
    /// For each place the credit in the OKAYs that calls on its channel
    /// wrote, since it was filled. libadb has no such number.
    totals: Vec<u64>,
}

/// How received bytes reach the original.
#[derive(Debug, Clone, Copy, PartialEq, Eq)]
pub enum Route {
    /// Put into its receive buffer, decoded from there. The future of a
    /// waiting open is dropped after each poll and resumed through
    /// `await_open_ack`, which is all that it has left to do; this lets
    /// the state be printed while an open waits.
    Lent,
    /// The same, but the future of a waiting open is held alive across
    /// open calls and fed through the transport.
    Kept,
    /// As `Lent`, but through the transport and `Staged`.
    Transport,
}

impl Drop for Oracle {
    fn drop(&mut self) {
        self.kept = None;
        self.release();
    }
}

impl Oracle {
    pub fn new(route: Route) -> Self {
        Self {
            conn: core::ptr::null_mut(),
            pipe: Pipe::default(),
            waiting: None,
            offer: None,
            kept: None,
            route,
            config: None,
            totals: vec![0; 64],
        }
    }

    fn release(&mut self) {
        assert!(self.kept.is_none());
        if !self.conn.is_null() {
            // SAFETY: from Box::into_raw in `make`, and no future has it.
            drop(unsafe { Box::from_raw(self.conn) });
            self.conn = core::ptr::null_mut();
        }
    }

    fn conn(&mut self) -> &mut Conn {
        assert!(self.kept.is_none(), "HARNESS: a kept open has the connection");
        assert!(!self.conn.is_null(), "HARNESS: no connection");
        // SAFETY: from Box::into_raw in `make`, and no future has it.
        unsafe { &mut *self.conn }
    }

    pub fn config(&self) -> Option<&Make> {
        self.config.as_ref()
    }

    pub fn snapshot(&mut self) -> Option<Snapshot> {
        if self.conn.is_null() || self.kept.is_some() {
            return None;
        }
        let conn = self.conn();
        Some(Snapshot {
            next: conn.probe_next_local(),
            slots: conn.probe_slots(),
            queue: conn.probe_queue(),
        })
    }

    pub fn waiting(&self) -> Option<(usize, u32)> {
        self.waiting.map(|c| (c.slot(), c.local_id()))
    }

    pub fn offered(&self) -> bool {
        self.offer.is_some()
    }

    /// Any call but open drops a waiting open.
    fn drop_open(&mut self) {
        self.kept = None;
        self.waiting = None;
    }

    /// The verdicts on the open that was taken, through libadb's `Incoming`.
    fn verdict(&mut self, call: &Call, pending: PendingOpen) -> String {
        let incoming = self.conn().probe_offer(pending);
        match call {
            Call::Accept => {
                match poll_once(incoming.accept()).expect("HARNESS: accept does not wait") {
                    Ok(ch) => format!("opened slot={} local={}", ch.slot(), ch.local_id()),
                    Err(e) => refusal(&e),
                }
            }
            Call::Reject => {
                match poll_once(incoming.reject()).expect("HARNESS: reject does not wait") {
                    Ok(()) => "rejected".into(),
                    Err(e) => refusal(&e),
                }
            }
            _ => {
                drop(incoming);
                "let_go".into()
            }
        }
    }

    /// Lend the first whole frame, or everything where there is none.
    ///
    /// The bytes go into the connection's own receive buffer, where
    /// `recv_pkt` starts with `Packet::decode`. Through the transport they
    /// would pass `Staged` first, which the scope document leaves out and which
    /// holds refusals 1 to 3 back until the declared payload is here, if
    /// that fits its 4096 bytes; `Route::Transport` shows this.
    fn feed(&mut self, received: &[u8]) -> Fed {
        let limit = self.config.as_ref().map_or(0, |c| c.max_payload);
        let mut copy = BytesMut::from(received);
        let decoded = Packet::decode(&mut copy, limit);
        let taken = received.len() - copy.len();
        let len = if taken > 0 { taken } else { received.len() };
        let mut lent = received[..len].to_vec();
        if self.kept.is_some() && decoded.is_err() && taken == 0 {
            // A kept future can only be reached through the transport: let
            // the rest of the refused frame follow.
            let declared = u32::from_le_bytes(lent[12..16].try_into().unwrap()) as usize;
            let all = 24 + declared.min(2 * 4096);
            lent.resize(all.max(len), 0);
        }
        if self.kept.is_some() || self.route == Route::Transport {
            self.pipe.0.borrow_mut().inbound.extend(&lent);
        } else {
            self.conn().probe_lend(&lent);
        }
        Fed {
            len: lent.len(),
            whole: taken > 0,
            incomplete: matches!(decoded, Ok(None)),
        }
    }

    /// What the call used of the lent bytes; the rest is thrown away, as
    /// the next call is lent its own.
    fn used(&mut self, fed: usize) -> usize {
        let conn = self.conn();
        let buffered = conn.probe_recv_len();
        conn.probe_clear_recv();
        let mut ends = self.pipe.0.borrow_mut();
        let left = ends.inbound.len() + buffered;
        ends.inbound.clear();
        fed - left
    }

    pub fn run(&mut self, call: &Call) -> Outcome {
        let done = catch_unwind(AssertUnwindSafe(|| self.step(call)));
        let (answer, used, got) = match done {
            Ok(done) => done,
            Err(why) => {
                let why = why
                    .downcast_ref::<String>()
                    .cloned()
                    .or_else(|| why.downcast_ref::<&str>().map(|s| s.to_string()))
                    .unwrap_or_default();
                self.kept = None;
                self.waiting = None;
                self.offer = None;
                (format!("panic {}", why.replace(char::is_whitespace, "_")), 0, Vec::new())
            }
        };
        let out = core::mem::take(&mut self.pipe.0.borrow_mut().written);
        self.count(call, &answer, &out);
        let state = self.snapshot();
        let mut answer = answer;
        if self.kept.is_none() && !self.conn.is_null() && self.conn().probe_desynced() {
            answer.push_str(" DESYNC");
        }
        Outcome {
            answer,
            used,
            out,
            got,
            state,
            made: !self.conn.is_null(),
            waiting: self.waiting(),
        }
    }

    /// The credit in what a call wrote: only a settling and a read write an
    /// OKAY that carries any, and each for its own channel.
    fn count(&mut self, call: &Call, answer: &str, out: &[u8]) {
        match call {
            Call::Make(_) => self.totals = vec![0; 64],
            Call::Open(..) | Call::Accept => {
                if let Some(slot) = answer.strip_prefix("opened slot=") {
                    let slot: usize = slot.split(' ').next().unwrap().parse().unwrap();
                    self.totals[slot] = 0;
                }
            }
            Call::Settle(slot, ..) | Call::Read(slot, ..) => {
                let mut at = 0;
                while at < out.len() {
                    let word = |i: usize| u32::from_le_bytes(out[at + i..at + i + 4].try_into().unwrap());
                    let len = word(12) as usize;
                    if &out[at..at + 4] == b"OKAY" && len == 4 {
                        self.totals[*slot] += u64::from(word(24));
                    }
                    at += 24 + len;
                }
            }
            _ => {}
        }
    }

    fn numbers(&mut self, slot: usize, local: u32) -> String {
        let Some(state) = self.snapshot() else {
            return "numbers ?".into();
        };
        match state.slots.iter().find(|s| s.place == slot && s.local == local) {
            Some(s) => format!(
                "numbers {} total={} buffered={} unacked={} budget={}",
                if s.state == SlotState::Closed { "closed" } else { "open" },
                self.totals[slot],
                s.data.len(),
                s.unacked,
                s.budget
            ),
            None => "refused 10".into(),
        }
    }

    fn step(&mut self, call: &Call) -> (String, usize, Vec<u8>) {
        let plain = |answer: String| (answer, 0, Vec::new());
        // Calls that are given no connection.
        match call {
            Call::Make(m) => return plain(self.make(m)),
            Call::HasFeature(text, name) => {
                let yes = has_feature(text, name);
                return plain(format!("feature {}", if yes { "yes" } else { "no" }));
            }
            Call::Decode(limit, received) => {
                let mut buf = BytesMut::from(&received[..]);
                let decoded = Packet::decode(&mut buf, *limit);
                let used = received.len() - buf.len();
                let answer = match decoded {
                    Ok(None) => "waiting".into(),
                    Ok(Some(p)) => format!(
                        "decoded command={} arg0={} arg1={} payload={}",
                        command_name(p.command),
                        p.arg0,
                        p.arg1,
                        hex(&p.data)
                    ),
                    Err(e) => refusal::<Never>(&e.into()),
                };
                return (answer, used, Vec::new());
            }
            Call::Missing(received) => {
                return plain(format!("missing n={}", Packet::missing(received)));
            }
            _ => {}
        }
        if self.conn.is_null() {
            return plain("error no_connection".into());
        }
        // Calls that only look, or are test aids: a waiting open stays.
        match call {
            Call::InUse => {
                if self.kept.is_some() {
                    return plain("in_use n=?".into());
                }
                let n = channel_table::probe::in_use(self.conn().probe_table());
                return plain(format!("in_use n={n}"));
            }
            Call::Numbers(slot, local) => return plain(self.numbers(*slot, *local)),
            Call::Totals => {
                let some = self.totals.iter().enumerate().filter(|(_, n)| **n > 0);
                return plain(format!("totals {}", list(some.map(|(i, n)| format!("{i}:{n}")).collect())));
            }
            Call::Open(dest, received) => return self.open(dest, received),
            _ => {}
        }
        self.drop_open();
        let offer = self.offer.take();
        match call {
            Call::Accept | Call::Reject | Call::LetGo => plain(match offer {
                Some(pending) => self.verdict(call, pending),
                None => "none".into(),
            }),
            Call::SetNextLocal(n) => {
                channel_table::probe::set_next_local(self.conn().probe_table(), *n);
                plain("set".into())
            }
            Call::SetBudget(slot, local, budget) => {
                let ch = ChannelId::from_raw(*slot, *local);
                if self.conn().probe_set_budget(ch, *budget) {
                    plain("set".into())
                } else {
                    plain("refused 10".into())
                }
            }
            Call::Dispatch(received) => {
                let fed = self.feed(received).len;
                let answer = match poll_once(self.conn().probe_dispatch_one()) {
                    None => "waiting".into(),
                    Some(Ok(())) => "handled".into(),
                    Some(Err(e)) => refusal(&e),
                };
                (answer, self.used(fed), Vec::new())
            }
            Call::Settle(slot, local, want) => {
                let ch = ChannelId::from_raw(*slot, *local);
                let done = poll_once(self.conn().probe_settle(ch, *want))
                    .expect("HARNESS: settle does not wait");
                plain(match done {
                    Ok(Some(n)) => format!("settled ack={n}"),
                    Ok(None) => "settled ack=none".into(),
                    Err(e) => refusal(&e),
                })
            }
            Call::Take(slot, local, len) => {
                let ch = ChannelId::from_raw(*slot, *local);
                let mut buf = vec![FILL; *len];
                match self.conn().probe_take(ch, &mut buf) {
                    Ok(Some(n)) => (format!("taken n={n}"), 0, handed(buf, n)),
                    Ok(None) => ("none".into(), 0, handed(buf, 0)),
                    Err(e) => (refusal(&e), 0, handed(buf, 0)),
                }
            }
            Call::Read(slot, local, len, received) => {
                let ch = ChannelId::from_raw(*slot, *local);
                let mut buf = vec![FILL; *len];
                let fed = self.feed(received).len;
                let done = poll_once(self.conn().read_channel(ch, &mut buf));
                let (answer, n) = match done {
                    None => ("waiting".into(), 0),
                    Some(Ok(n)) => (format!("read n={n}"), n),
                    Some(Err(e)) => (refusal(&e), 0),
                };
                (answer, self.used(fed), handed(buf, n))
            }
            Call::Write(slot, local, data, received) => {
                let ch = ChannelId::from_raw(*slot, *local);
                let fed = self.feed(received).len;
                let answer = self.write(ch, data);
                (answer, self.used(fed), Vec::new())
            }
            Call::Close(slot, local) => {
                let ch = ChannelId::from_raw(*slot, *local);
                let done = poll_once(self.conn().close_channel(ch))
                    .expect("HARNESS: close does not wait");
                plain(match done {
                    Ok(()) => "closed".into(),
                    Err(e) => refusal(&e),
                })
            }
            Call::TakeFront => plain(match self.conn().probe_take_front() {
                Some(p) => {
                    let answer = format!(
                        "front remote={} credit={} destination={}",
                        p.remote.raw(),
                        p.credit,
                        hex(&p.destination)
                    );
                    self.offer = Some(p);
                    answer
                }
                None => "none".into(),
            }),
            _ => unreachable!("HARNESS: handled above"),
        }
    }

    fn make(&mut self, m: &Make) -> String {
        self.drop_open();
        self.offer = None;
        self.release();
        self.pipe = Pipe::default();
        let config = Conn::probe_config(
            m.channels,
            m.max_payload,
            m.max_rx,
            m.initial_ack,
        );
        let text: &[u8] = if m.device_delayed {
            b"device::features=shell_v2,delayed_ack"
        } else {
            b"device::features=shell_v2"
        };
        let cnxn = Packet::new(Command::Connect, m.cnxn_arg0, m.cnxn_arg1, text);
        let made = Conn::probe_make(self.pipe.clone(), config.0, m.host_delayed, cnxn);
        let conn = match made {
            Ok(conn) => conn,
            Err(e) => return refusal(&e),
        };
        let n = conn.probe_negotiated();
        let policy = n.rx_policy();
        let answer = format!(
            "made cap={} ceiling={} watermark={} credit={} max={} version={} delayed={}",
            policy.rx_cap,
            config.1,
            policy.watermark,
            n.advertised_credit().unwrap_or(0),
            n.max_payload,
            n.protocol_version,
            n.delayed_ack as u8,
        );
        self.conn = Box::into_raw(Box::new(conn));
        self.config = Some(m.clone());
        answer
    }

    fn open(&mut self, dest: &[u8], received: &[u8]) -> (String, usize, Vec<u8>) {
        let Some(ch) = self.waiting else {
            self.offer = None;
            return (self.open_first(dest), 0, Vec::new());
        };
        let fed = self.feed(received);
        if self.kept.is_some() {
            // The future has the connection, and with it the receive
            // buffer, which could not be emptied of half a frame.
            if fed.incomplete {
                self.pipe.0.borrow_mut().inbound.clear();
                return ("waiting".into(), 0, Vec::new());
            }
            let fut = self.kept.as_mut().expect("HARNESS: a future is kept");
            return match fut
                .as_mut()
                .poll(&mut Context::from_waker(Waker::noop()))
            {
                Poll::Pending => {
                    assert!(fed.whole && self.pipe.0.borrow().inbound.is_empty());
                    ("waiting".into(), fed.len, Vec::new())
                }
                Poll::Ready(done) => {
                    self.drop_open();
                    (opened(ch, done), self.used(fed.len), Vec::new())
                }
            };
        }
        let answer = match poll_once(self.conn().probe_await_open_ack(ch)) {
            None => "waiting".into(),
            Some(done) => {
                self.drop_open();
                opened(ch, done)
            }
        };
        (answer, self.used(fed.len), Vec::new())
    }

    /// The call that writes the OPEN.
    fn open_first(&mut self, dest: &[u8]) -> String {
        // `open_channel` does not tell the place and number it allocated
        // until the device answers.
        let ch = channel_table::probe::would_allocate(self.conn().probe_table());
        let polled = if self.route == Route::Kept {
            // SAFETY: `self.conn` is not used until this future is gone.
            let conn: &'static mut Conn = unsafe { &mut *self.conn };
            let dest = dest.to_vec();
            let mut fut: OpenFuture = Box::pin(async move { conn.open_channel(&dest).await });
            match fut
                .as_mut()
                .poll(&mut Context::from_waker(Waker::noop()))
            {
                Poll::Ready(done) => Some(done),
                Poll::Pending => {
                    self.kept = Some(fut);
                    None
                }
            }
        } else {
            poll_once(self.conn().open_channel(dest))
        };
        match polled {
            Some(Err(e)) => refusal(&e),
            Some(Ok(_)) => panic!("HARNESS: opened without a packet"),
            None => {
                let ch = ch.expect("HARNESS: an OPEN went out with no slot empty");
                assert_eq!(
                    self.pipe.0.borrow().written[4..8],
                    ch.local_id().to_le_bytes(),
                    "HARNESS: OPEN carries another local number"
                );
                self.waiting = Some(ch);
                "waiting".into()
            }
        }
    }

    /// One turn of `write_channel`'s loop: its wait, then at most one WRTE.
    fn write(&mut self, ch: ChannelId, data: &[u8]) -> String {
        if !data.is_empty() {
            match poll_once(self.conn().probe_wait_ack(ch)) {
                None => return "waiting".into(),
                Some(Err(e)) => return refusal(&e),
                Some(Ok(())) => {}
            }
        }
        // What the loop's own minimum would be: write_channel, handed no
        // more than that, sends one frame and is done.
        let max = (self.conn().max_payload() as usize).max(1);
        let budget = self.conn().probe_budget(ch).unwrap_or(0);
        let n = data.len().min(max).min(budget);
        assert!(data.is_empty() || n > 0, "HARNESS: waited with nothing to send");
        match poll_once(self.conn().write_channel(ch, &data[..n])) {
            None => panic!("HARNESS: write_channel waited"),
            Some(Ok(())) => format!("written n={n}"),
            Some(Err(e)) => refusal(&e),
        }
    }
}

struct Fed {
    len: usize,
    whole: bool,
    incomplete: bool,
}

fn opened(ch: ChannelId, done: Result<ChannelId, Error<Never>>) -> String {
    match done {
        Ok(got) => {
            assert_eq!(got, ch, "HARNESS: another channel was opened");
            format!("opened slot={} local={}", got.slot(), got.local_id())
        }
        Err(e) => refusal(&e),
    }
}

fn handed(mut buf: Vec<u8>, n: usize) -> Vec<u8> {
    assert!(
        buf[n..].iter().all(|b| *b == FILL),
        "bytes past the count were changed"
    );
    buf.truncate(n);
    buf
}
