//! Holds the page: its shape, and the sum of the symbols that a constraint names.

/// Whether n is 1 to 64 and L is 1 to 32.
pub fn in_shape(n: u8, l: u8) -> bool {
    (1..=64).contains(&n) && (1..=32).contains(&l)
}

/// nL, the bytes of a page.
pub fn length(n: u8, l: u8) -> usize {
    usize::from(n) * usize::from(l)
}

/// Whether the constraint has a bit worth 2^n or more.
pub fn strays(n: u8, constraint: u64) -> bool {
    // A shift by 64 would overflow, and no 64-bit constraint has such a bit.
    n < 64 && constraint >> n != 0
}

/// Adds `other` to `sum`, byte by byte.
pub fn xor(sum: &mut [u8], other: &[u8]) {
    for (byte, other) in sum.iter_mut().zip(other) {
        *byte ^= other;
    }
}

/// The exclusive-or of the symbols of L bytes that the constraint names.
pub fn sum(constraint: u64, l: usize, page: &[u8]) -> Vec<u8> {
    let mut sum = vec![0; l];
    for (k, symbol) in page.chunks_exact(l).enumerate() {
        if constraint >> k & 1 == 1 {
            xor(&mut sum, symbol);
        }
    }
    sum
}
