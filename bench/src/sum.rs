//! The sum of a payload alone: the code of crates/checksum, and the code that stood there before.

mod linked {
    extern "C" {
        pub fn bench_sum(payload: *const u8, payload_len: usize) -> u32;
        pub fn sum_before(payload: *const u8, payload_len: usize) -> u32;
    }
}

pub fn now(payload: &[u8]) -> u32 {
    // SAFETY: the length is the payload's. So in the next.
    unsafe { linked::bench_sum(payload.as_ptr(), payload.len()) }
}

pub fn before(payload: &[u8]) -> u32 {
    unsafe { linked::sum_before(payload.as_ptr(), payload.len()) }
}

/// Both give the same, at every length around the ends of blocks and runs, also with the largest sums that a run has.
pub fn compare(random: &[u8]) {
    let largest = [0xff; 1100];
    let plain = |p: &[u8]| p.iter().fold(0u32, |s, b| s.wrapping_add(u32::from(*b)));
    for n in 0..=largest.len() {
        for p in [&largest[..n], &random[..n]] {
            assert!(now(p) == plain(p) && before(p) == plain(p), "sum of {n} bytes");
        }
    }
    assert_eq!(now(random), before(random), "sum of {} bytes", random.len());
}
