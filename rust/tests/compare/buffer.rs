//! Holds the noise that buffers are filled with before they are lent.

use plain::rng::Rng;

use crate::case::same_bytes;

/// Drawn eight bytes at a time, as the scratch alone takes 32,768.
pub fn noise(rng: &mut Rng, length: usize) -> Vec<u8> {
    let mut bytes = vec![0; length];
    for chunk in bytes.chunks_mut(8) {
        chunk.copy_from_slice(&rng.draw().to_le_bytes()[..chunk.len()]);
    }
    bytes
}

/// Noise of fewer bytes than the bound.
pub fn some_noise(rng: &mut Rng, bound: usize) -> Vec<u8> {
    let length = rng.below(bound);
    noise(rng, length)
}

/// Odd, so that what is lent has no even address to lean on.
pub const MARGIN: usize = 7;

/// A buffer with a margin on either side, which is not lent and is compared all the same.
#[derive(Clone)]
pub struct Buffer {
    bytes: Vec<u8>,
    margin: usize,
}

impl Buffer {
    pub fn of_noise(rng: &mut Rng, length: usize) -> Self {
        Buffer::within(rng, MARGIN, length)
    }

    /// With a margin of so many bytes.
    pub fn within(rng: &mut Rng, margin: usize, length: usize) -> Self {
        let bytes = noise(rng, margin + length + margin);
        Buffer { bytes, margin }
    }

    pub fn lent(&mut self) -> &mut [u8] {
        let end = self.bytes.len() - self.margin;
        &mut self.bytes[self.margin..end]
    }

    pub fn same_as(&self, what: &str, expected: &Buffer) -> Result<(), String> {
        let what = format!("{what} and {} bytes on either side", self.margin);
        same_bytes(&what, &self.bytes, &expected.bytes)
    }
}
