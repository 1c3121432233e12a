//! This library through its C interface (include/adb.h).

use crate::frames::*;
use std::alloc::{alloc_zeroed, Layout};

extern "C" {
    fn adb_make(
        state: *mut u8, state_len: usize, channels: usize, max_payload: u32, max_rx_per_channel: usize,
        initial_ack_bytes: u32, version: u32, device_max_payload: u32, host_delayed_ack: u8, device_delayed_ack: u8,
    ) -> u32;
    fn adb_open(
        state: *mut u8, state_len: usize, rx: *mut u8, rx_len: usize, opens: *mut u8, opens_len: usize,
        destination: *const u8, destination_len: usize, received: *const u8, received_len: usize,
        out: *mut u8, out_len: usize, answer: *mut u8, answer_len: usize,
    ) -> u32;
    fn adb_dispatch(
        state: *mut u8, state_len: usize, rx: *mut u8, rx_len: usize, opens: *mut u8, opens_len: usize,
        received: *const u8, received_len: usize, out: *mut u8, out_len: usize, answer: *mut u8, answer_len: usize,
    ) -> u32;
    fn adb_read(
        state: *mut u8, state_len: usize, rx: *mut u8, rx_len: usize, opens: *mut u8, opens_len: usize,
        slot: usize, local: u32, received: *const u8, received_len: usize,
        out: *mut u8, out_len: usize, buf: *mut u8, buf_len: usize, answer: *mut u8, answer_len: usize,
    ) -> u32;
    fn adb_write(
        state: *mut u8, state_len: usize, rx: *mut u8, rx_len: usize, opens: *mut u8, opens_len: usize,
        slot: usize, local: u32, data: *const u8, data_len: usize, received: *const u8, received_len: usize,
        out: *mut u8, out_len: usize, answer: *mut u8, answer_len: usize,
    ) -> u32;
    fn adb_take_front(
        state: *mut u8, state_len: usize, rx: *const u8, rx_len: usize, opens: *const u8, opens_len: usize,
        answer: *mut u8, answer_len: usize,
    ) -> u32;
    fn adb_stretch(
        state: *const u8, state_len: usize, rx: *const u8, rx_len: usize, opens: *const u8, opens_len: usize,
        received: *const u8, received_len: usize, spare_rx: *mut u8, spare_rx_len: usize,
        spare_opens: *mut u8, spare_opens_len: usize, answer: *mut u8, answer_len: usize,
    ) -> u32;
}

const STATE_LEN: usize = 4474;
const DONE: u32 = 0;
const WAITING: u32 = 100;
const NONE: u32 = 101;

/// Zeroed memory that is not touched: pages that no row needs are never there.
pub struct Store {
    at: *mut u8,
    len: usize,
}

impl Store {
    fn new(len: usize) -> Self {
        let layout = Layout::from_size_align(len, 4096).unwrap();
        // SAFETY: len is not 0.
        let at = unsafe { alloc_zeroed(layout) };
        assert!(!at.is_null());
        Store { at, len }
    }
}

/// An outgoing buffer as adb.h advises: 8 past a multiple of 16, so that a payload behind a header begins at one.
fn outgoing(len: usize) -> &'static mut [u8] {
    let all = vec![0; len + 16].leak();
    let skip = (24 - all.as_ptr() as usize % 16) % 16;
    &mut all[skip..skip + len]
}

/// In a cache line of its own, as a caller's on its stack would mostly be.
#[repr(align(64))]
struct Answer([u64; 6]);

pub struct Ours {
    case: Case,
    state: Vec<u8>,
    rx: Store,
    opens: Store,
    pub out: &'static mut [u8],
    pub buf: Vec<u8>,
    answer: Answer,
    channels: Vec<(usize, u32)>,
    /// Stand for what the kernel copies from and to, where the transport's copies are counted.
    inbound: Vec<u8>,
    sink: Vec<u8>,
    /// Everything written, while the sides are compared.
    pub record: Option<Vec<u8>>,
}

impl Ours {
    pub fn new() -> Self {
        Ours {
            case: Case { kind: Kind::Write, size: 0, open: 0, delayed: false, sums: false },
            state: vec![0; STATE_LEN],
            rx: Store::new(CHANNELS * 2 * MAX_RX),
            opens: Store::new(CHANNELS * MAX_PAYLOAD),
            out: outgoing(HEADER + MAX_PAYLOAD),
            buf: vec![0; MAX_PAYLOAD],
            answer: Answer([0; 6]),
            channels: Vec::new(),
            inbound: vec![0; HEADER + MAX_PAYLOAD],
            sink: vec![0; HEADER + MAX_PAYLOAD],
            record: None,
        }
    }

    fn used(&self) -> usize {
        u64::from_le(self.answer.0[0]) as usize
    }

    fn written(&self) -> usize {
        u64::from_le(self.answer.0[1]) as usize
    }

    fn value(&self, i: usize) -> u64 {
        u64::from_le(self.answer.0[2 + i])
    }

    fn open(&mut self, received: &[u8]) -> u32 {
        let name = b"bench:\0";
        // SAFETY: every length is its buffer's, and no two buffers overlap. So in the calls below.
        let said = unsafe {
            adb_open(
                self.state.as_mut_ptr(), self.state.len(), self.rx.at, self.rx.len, self.opens.at, self.opens.len,
                name.as_ptr(), name.len(), received.as_ptr(), received.len(),
                self.out.as_mut_ptr(), self.out.len(), self.answer.0.as_mut_ptr().cast(), 48,
            )
        };
        self.keep();
        said
    }

    #[inline(always)]
    fn dispatch(&mut self, received: &[u8]) -> u32 {
        unsafe {
            adb_dispatch(
                self.state.as_mut_ptr(), self.state.len(), self.rx.at, self.rx.len, self.opens.at, self.opens.len,
                received.as_ptr(), received.len(),
                self.out.as_mut_ptr(), self.out.len(), self.answer.0.as_mut_ptr().cast(), 48,
            )
        }
    }

    #[inline(always)]
    fn read(&mut self, i: usize, received: &[u8]) -> u32 {
        let (slot, local) = self.channels[i];
        unsafe {
            adb_read(
                self.state.as_mut_ptr(), self.state.len(), self.rx.at, self.rx.len, self.opens.at, self.opens.len,
                slot, local, received.as_ptr(), received.len(),
                self.out.as_mut_ptr(), self.out.len(), self.buf.as_mut_ptr(), self.case.size.max(1),
                self.answer.0.as_mut_ptr().cast(), 48,
            )
        }
    }

    #[inline(always)]
    fn write(&mut self, i: usize, data: &[u8], received: &[u8]) -> u32 {
        let (slot, local) = self.channels[i];
        unsafe {
            adb_write(
                self.state.as_mut_ptr(), self.state.len(), self.rx.at, self.rx.len, self.opens.at, self.opens.len,
                slot, local, data.as_ptr(), data.len(), received.as_ptr(), received.len(),
                self.out.as_mut_ptr(), self.out.len(), self.answer.0.as_mut_ptr().cast(), 48,
            )
        }
    }

    #[inline(always)]
    fn take_front(&mut self) -> u32 {
        unsafe {
            adb_take_front(
                self.state.as_mut_ptr(), self.state.len(), self.rx.at, self.rx.len, self.opens.at, self.opens.len,
                self.answer.0.as_mut_ptr().cast(), 48,
            )
        }
    }

    /// 40 channels open, and 32 frames of the first, none of which can be left out: the last goes over its cap by as many bytes as it
    /// has, one.
    pub fn stretch_log(&mut self) -> Vec<u8> {
        self.make(Case { kind: Kind::DispatchNothing, size: 0, open: 40, delayed: false, sums: false });
        let (theirs, ours) = (remote(0), self.channels[0].1);
        let mut left = MAX_RX - 31 * 64;
        while left > 0 {
            let n = left.min(MAX_PAYLOAD);
            let mut frame = Vec::new();
            put_frame(&mut frame, b"WRTE", theirs, ours, &vec![7; n], false);
            assert_eq!(self.dispatch(&frame), DONE, "dispatch");
            left -= n;
        }
        let mut log = Vec::new();
        for i in 0..32 {
            put_frame(&mut log, b"WRTE", theirs, ours, &vec![i; if i < 31 { 64 } else { 1 }], false);
        }
        log
    }

    /// The spare stores of `stretch`.
    pub fn spares() -> (Store, Store) {
        (Store::new(CHANNELS * 2 * MAX_RX), Store::new(CHANNELS * MAX_PAYLOAD))
    }

    pub fn stretch(&mut self, log: &[u8], spares: &(Store, Store), rounds: usize) {
        for _ in 0..rounds {
            let said = unsafe {
                adb_stretch(
                    self.state.as_ptr(), self.state.len(), self.rx.at, self.rx.len, self.opens.at, self.opens.len,
                    log.as_ptr(), log.len(), spares.0.at, spares.0.len, spares.1.at, spares.1.len,
                    self.answer.0.as_mut_ptr().cast(), 48,
                )
            };
            assert!(said == DONE && self.value(0) == 0 && self.value(1) == 32, "stretch: {said}");
        }
    }

    fn keep(&mut self) {
        let n = self.written();
        if let Some(record) = &mut self.record {
            record.extend_from_slice(&self.out[..n]);
        }
    }

    /// A connection with the row's channels open, each of which has its first write behind it.
    pub fn make(&mut self, case: Case) {
        self.case = case;
        self.channels.clear();
        let flag = u8::from(case.delayed);
        let said = unsafe {
            adb_make(
                self.state.as_mut_ptr(), self.state.len(), CHANNELS, MAX_PAYLOAD as u32, MAX_RX, INITIAL_ACK,
                case.version(), MAX_PAYLOAD as u32, flag, flag,
            )
        };
        assert_eq!(said, DONE, "make");
        for i in 0..case.open {
            assert_eq!(self.open(&[]), WAITING, "open {i}");
            assert_eq!(self.open(&opening_okay(case, i)), DONE, "open {i}");
            self.channels.push((self.value(0) as usize, self.value(1) as u32));
            assert_eq!(self.channels[i].1, 1 + i as u32);
        }
        if case.kind == Kind::Write && !case.delayed {
            for i in 0..case.open {
                assert_eq!(self.write(i, b"first", &[]), DONE);
                self.keep();
            }
        }
    }

    /// What the kernel does ahead of a call and after it, where that is counted.
    #[inline(always)]
    fn arrive<'a>(&mut self, received: &'a [u8], frame: usize, copies: bool) -> &'a [u8] {
        if !copies {
            return received;
        }
        // SAFETY: a frame is no longer than `inbound`, which nothing else touches while it is lent.
        unsafe {
            std::ptr::copy_nonoverlapping(received.as_ptr(), self.inbound.as_mut_ptr(), frame);
            std::slice::from_raw_parts(self.inbound.as_ptr(), frame)
        }
    }

    #[inline(always)]
    fn depart(&mut self, copies: bool) {
        if copies {
            let n = self.written();
            self.sink[..n].copy_from_slice(&self.out[..n]);
        } else if self.record.is_some() {
            self.keep();
        }
    }

    /// A number of rounds; each call's answer is looked at, and its bytes in `each`, which a timed run leaves empty.
    pub fn run(&mut self, round: &Round, rounds: usize, copies: bool, mut each: impl FnMut(usize, &[u8])) {
        let size = self.case.size;
        for _ in 0..rounds {
            for i in 0..self.case.open {
                let received = &round.frames[round.at[i]..];
                let frame = round.at[i + 1] - round.at[i];
                match self.case.kind {
                    Kind::DispatchRead => {
                        let received = self.arrive(received, frame, copies);
                        let said = self.dispatch(received);
                        assert!(said == DONE && self.used() == frame, "dispatch: {said}");
                        self.depart(copies);
                        let said = self.read(i, &[]);
                        assert!(said == DONE && self.value(0) as usize == size, "read: {said}");
                        self.depart(copies);
                    }
                    Kind::DirectRead => {
                        let received = self.arrive(received, frame, copies);
                        let said = self.read(i, received);
                        assert!(said == DONE && self.used() == frame && self.value(0) as usize == size, "read: {said}");
                        self.depart(copies);
                    }
                    Kind::Write => {
                        let received = self.arrive(received, frame, copies);
                        let said = self.write(i, &round.data[i], received);
                        assert!(said == DONE && self.used() == frame && self.value(0) as usize == size, "write: {said}");
                        self.depart(copies);
                    }
                    Kind::DispatchNothing => {
                        let received = self.arrive(received, frame, copies);
                        let said = self.dispatch(received);
                        assert!(said == DONE && self.used() == frame, "dispatch: {said}");
                    }
                    Kind::ReadNothing => {
                        let said = self.read(i, &[]);
                        assert!(said == WAITING, "read: {said}");
                    }
                    Kind::FrontNothing => {
                        let said = self.take_front();
                        assert!(said == NONE, "take_front: {said}");
                    }
                }
                each(i, &self.buf);
            }
        }
    }

    /// The copies that the row cannot do without, by memcpy, on the same memory.
    pub fn copies(&mut self, round: &Round, rounds: usize) {
        let size = self.case.size;
        let copy = |from: *const u8, to: *mut u8| {
            // SAFETY: both are `size` bytes of buffers that do not overlap. A length that is not known makes it a call.
            unsafe { std::ptr::copy_nonoverlapping(from, to, std::hint::black_box(size)) }
        };
        for _ in 0..rounds {
            for i in 0..self.case.open {
                match self.case.kind {
                    Kind::DispatchRead => {
                        let share = unsafe { self.rx.at.add(self.channels[i].0 * 2 * MAX_RX) };
                        copy(round.payload(i).as_ptr(), share);
                        copy(share, self.buf.as_mut_ptr());
                    }
                    Kind::DirectRead => copy(round.payload(i).as_ptr(), self.buf.as_mut_ptr()),
                    Kind::Write => copy(round.data[i].as_ptr(), self.out[HEADER..].as_mut_ptr()),
                    _ => {}
                }
            }
        }
    }
}
