//! A small generator for test data, the same on every run. Not for secrets.

/// Marsaglia's xorshift of 64 bits, with a product on the way out.
pub struct Random(u64);

impl Random {
    /// A generator of its own for each number.
    pub fn new(number: u64) -> Self {
        Random(number.wrapping_mul(0x9e37_79b9_7f4a_7c15) | 1)
    }

    pub fn number(&mut self) -> u64 {
        self.0 ^= self.0 >> 12;
        self.0 ^= self.0 << 25;
        self.0 ^= self.0 >> 27;
        self.0.wrapping_mul(0x2545_f491_4f6c_dd1d)
    }

    /// A number below the bound, which is not 0.
    pub fn below(&mut self, bound: usize) -> usize {
        (self.number() % bound as u64) as usize
    }

    pub fn bytes(&mut self, length: usize) -> Vec<u8> {
        let mut bytes = vec![0; length];
        for chunk in bytes.chunks_mut(8) {
            chunk.copy_from_slice(&self.number().to_be_bytes()[..chunk.len()]);
        }
        bytes
    }

    pub fn seed(&mut self) -> [u8; 32] {
        self.bytes(32).try_into().expect("32 bytes")
    }

    pub fn numbers16(&mut self, length: usize) -> Vec<u16> {
        (0..length).map(|_| (self.number() >> 48) as u16).collect()
    }

    pub fn numbers32(&mut self, length: usize) -> Vec<u32> {
        (0..length).map(|_| (self.number() >> 32) as u32).collect()
    }
}
