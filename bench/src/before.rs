//! The sum of a payload as crates/checksum had it before, written out in Rust: blocks of 64 bytes in 32 bits, then the bytes
//! that are left. build.rs compiles it by itself.

// Rattle tells its compiler what is proved: that no sum wraps and no index is out of range. So is rustc told here.
// SAFETY of all that follow: what is read lies in the payload, and no sum of a block is above 64 * 255.

unsafe fn wide(p: *const u8, i: usize) -> u32 {
    u32::from(*p.add(i))
}

unsafe fn four(a: u32, b: u32, c: u32, d: u32) -> u32 {
    a.unchecked_add(b).unchecked_add(c).unchecked_add(d)
}

unsafe fn sum_4(p: *const u8, i: usize) -> u32 {
    four(wide(p, i), wide(p, i + 1), wide(p, i + 2), wide(p, i + 3))
}

unsafe fn sum_16(p: *const u8, i: usize) -> u32 {
    four(sum_4(p, i), sum_4(p, i + 4), sum_4(p, i + 8), sum_4(p, i + 12))
}

unsafe fn sum_64(p: *const u8, i: usize) -> u32 {
    four(sum_16(p, i), sum_16(p, i + 16), sum_16(p, i + 32), sum_16(p, i + 48))
}

unsafe fn sum_blocks(p: *const u8, end: usize) -> u32 {
    let mut sum = 0u32;
    let mut i = 0;
    while i < end {
        sum = sum.wrapping_add(sum_64(p, i));
        i += 64;
    }
    sum
}

unsafe fn sum_rest(p: *const u8, len: usize, from: usize, before: u32) -> u32 {
    let mut sum = before;
    let mut i = from;
    while i < len {
        sum = sum.wrapping_add(wide(p, i));
        i += 1;
    }
    sum
}

#[no_mangle]
pub unsafe extern "C" fn sum_before(payload: *const u8, payload_len: usize) -> u32 {
    let end = payload_len - payload_len % 64;
    sum_rest(payload, payload_len, end, sum_blocks(payload, end))
}
