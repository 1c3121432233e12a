//! What a row is, and the bytes that both sides are handed for it.

pub const HEADER: usize = 24;
pub const CHANNELS: usize = 64;
pub const MAX_PAYLOAD: usize = 1 << 20;
pub const MAX_RX: usize = 4 << 20;
/// Above the largest payload, so that without delayed acknowledgement a WRTE is acknowledged as it arrives.
pub const INITIAL_ACK: u32 = 2 << 20;

#[derive(Clone, Copy, PartialEq, Eq, Debug)]
pub enum Kind {
    /// A WRTE is dispatched while nobody reads, then read.
    DispatchRead,
    /// The read itself takes the WRTE.
    DirectRead,
    /// The OKAY is taken, then the WRTE is written.
    Write,
    /// A frame that changes nothing is dispatched.
    DispatchNothing,
    /// A read with nothing buffered and nothing received.
    ReadNothing,
    /// The device's open that waits is asked for, and none does.
    FrontNothing,
}

impl Kind {
    pub fn name(self) -> &'static str {
        match self {
            Kind::DispatchRead => "dispatch + read",
            Kind::DirectRead => "direct read",
            Kind::Write => "write + OKAY",
            Kind::DispatchNothing => "dispatch of a CNXN",
            Kind::ReadNothing => "read, nothing received",
            Kind::FrontNothing => "take_front, none waits",
        }
    }
}

#[derive(Clone, Copy, Debug)]
pub struct Case {
    pub kind: Kind,
    pub size: usize,
    pub open: usize,
    pub delayed: bool,
    pub sums: bool,
}

impl Case {
    pub fn version(self) -> u32 {
        if self.sums {
            0x0100_0000
        } else {
            0x0100_0001
        }
    }
}

pub fn remote(i: usize) -> u32 {
    1000 + 17 * i as u32
}

fn sum(bytes: &[u8]) -> u32 {
    bytes.iter().fold(0u32, |s, b| s.wrapping_add(u32::from(*b)))
}

pub fn put_frame(to: &mut Vec<u8>, command: &[u8; 4], arg0: u32, arg1: u32, payload: &[u8], sums: bool) {
    let word = u32::from_le_bytes(*command);
    let check = if sums { sum(payload) } else { 0 };
    for w in [word, arg0, arg1, payload.len() as u32, check, !word] {
        to.extend_from_slice(&w.to_le_bytes());
    }
    to.extend_from_slice(payload);
}

pub struct Random(u64);

impl Random {
    pub fn new(seed: usize) -> Self {
        Random(0x9e37_79b9_7f4a_7c15 ^ seed as u64)
    }

    pub fn bytes(&mut self, n: usize) -> Vec<u8> {
        (0..n)
            .map(|_| {
                self.0 ^= self.0 << 13;
                self.0 ^= self.0 >> 7;
                self.0 ^= self.0 << 17;
                (self.0 >> 32) as u8
            })
            .collect()
    }
}

/// What arrives in one round, a frame for each channel in turn, and what is written to each.
pub struct Round {
    pub frames: Vec<u8>,
    /// Where each channel's frame begins, and after them where the last one ends.
    pub at: Vec<usize>,
    pub data: Vec<Vec<u8>>,
}

impl Round {
    pub fn of(case: Case) -> Self {
        let mut rng = Random::new(case.size);
        let mut random = |n: usize| rng.bytes(n);
        let mut round = Round { frames: Vec::new(), at: vec![0], data: Vec::new() };
        for i in 0..case.open {
            let (theirs, ours) = (remote(i), 1 + i as u32);
            match case.kind {
                Kind::DispatchRead | Kind::DirectRead => {
                    put_frame(&mut round.frames, b"WRTE", theirs, ours, &random(case.size), case.sums);
                }
                Kind::Write => {
                    let credit = (case.size as u32).to_le_bytes();
                    let payload: &[u8] = if case.delayed { &credit } else { &[] };
                    put_frame(&mut round.frames, b"OKAY", theirs, ours, payload, case.sums);
                    round.data.push(random(case.size));
                }
                Kind::DispatchNothing => {
                    put_frame(&mut round.frames, b"CNXN", case.version(), MAX_PAYLOAD as u32, &[], case.sums);
                }
                Kind::ReadNothing | Kind::FrontNothing => {}
            }
            round.at.push(round.frames.len());
        }
        round
    }

    pub fn payload(&self, i: usize) -> &[u8] {
        &self.frames[self.at[i] + HEADER..self.at[i + 1]]
    }
}

/// The OKAY that opens channel i; without credit, so that with delayed acknowledgement each write takes its own OKAY.
pub fn opening_okay(case: Case, i: usize) -> Vec<u8> {
    let mut frame = Vec::new();
    let payload: &[u8] = if case.delayed { &[0; 4] } else { &[] };
    put_frame(&mut frame, b"OKAY", remote(i), 1 + i as u32, payload, case.sums);
    frame
}
