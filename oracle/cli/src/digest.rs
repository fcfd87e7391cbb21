//! A digest that a small program of any language can work out: no product
//! passes 64 bits.

const MODULUS: u64 = 2_147_483_647;

/// Begins at 0; each byte b makes it (257 d + b + 1) mod (2^31 - 1).
#[derive(Debug, Default, Clone, Copy)]
pub struct Digest(pub u64);

impl Digest {
    pub fn take(&mut self, bytes: &[u8]) {
        for &byte in bytes {
            self.0 = (257 * self.0 + u64::from(byte) + 1) % MODULUS;
        }
    }

    pub fn of(bytes: &[u8]) -> u64 {
        let mut digest = Self::default();
        digest.take(bytes);
        digest.0
    }
}
