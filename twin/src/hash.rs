//! The two hashes by their meaning: a rule from lists of bytes to 32 bytes, and a
//! capacity. This twin takes each message whole; it has no state between takes.

use crate::fault::{Fault, Layer};
use crate::sha2::sha512;
use crate::sha3::sha3_512;

/// The capacity of both hashes; a smaller one can be asked for.
pub const CAPACITY: usize = 65_536;

/// The rules: the first 32 bytes of a digest of 64.
#[derive(Clone, Copy, Debug, PartialEq, Eq)]
pub enum Kind {
    Sha3 = 0,
    Sha2 = 1,
}

impl Kind {
    pub const BOTH: [Kind; 2] = [Kind::Sha3, Kind::Sha2];

    pub fn rule(self, bytes: &[u8]) -> [u8; 32] {
        let digest = match self {
            Kind::Sha3 => sha3_512(bytes),
            Kind::Sha2 => sha512(bytes),
        };
        std::array::from_fn(|i| digest[i])
    }
}

/// A hash that takes no more bytes than asked for, and never more than [`CAPACITY`].
#[derive(Clone, Copy, Debug)]
pub struct Hash {
    pub kind: Kind,
    pub asked: usize,
}

impl Hash {
    pub fn new(kind: Kind, asked: usize) -> Self {
        Hash { kind, asked }
    }

    /// With the whole capacity.
    pub fn full(kind: Kind) -> Self {
        Hash::new(kind, CAPACITY)
    }

    pub fn capacity(&self) -> usize {
        self.asked.min(CAPACITY)
    }

    /// Start, take and finish.
    pub fn digest(&self, bytes: &[u8]) -> Result<[u8; 32], Fault> {
        if bytes.len() > self.capacity() {
            return Err(Fault::new(5, Layer::Hash, 0));
        }
        Ok(self.kind.rule(bytes))
    }

    pub fn labelled(self, label: [u8; 8]) -> Labelled {
        Labelled { below: self, label }
    }
}

/// A hash over another one, with a label before the bytes. Over a capacity that
/// cannot hold the label there is none, and nothing can be taken.
pub struct Labelled {
    below: Hash,
    label: [u8; 8],
}

impl Labelled {
    pub fn capacity(&self) -> usize {
        self.below.capacity().saturating_sub(self.label.len())
    }

    pub fn digest(&self, parts: &[&[u8]]) -> Result<[u8; 32], Fault> {
        let label: &[u8] = if self.below.capacity() < self.label.len() { &[] } else { &self.label };
        let bytes = [&[label], parts].concat().concat();
        self.below.digest(&bytes)
    }
}

/// Bytes as pairs of lower-case digits.
pub fn hex(bytes: &[u8]) -> String {
    bytes.iter().map(|byte| format!("{byte:02x}")).collect()
}

#[cfg(test)]
pub mod tests {
    use super::*;

    /// The message of 896 bits that both standards' examples use.
    pub const LONG: &[u8] = b"abcdefghbcdefghicdefghijdefghijkefghijklfghijklmghijklmn\
        hijklmnoijklmnopjklmnopqklmnopqrlmnopqrsmnopqrstnopqrstu";

    const LABEL: [u8; 8] = *b"PALOMAGG";
    const REFUSED: Fault = Fault::new(5, Layer::Hash, 0);

    #[test]
    fn a_hash_takes_its_capacity_and_no_more() {
        for kind in Kind::BOTH {
            for (asked, capacity) in
                [(0, 0), (100, 100), (CAPACITY, CAPACITY), (usize::MAX, CAPACITY)]
            {
                let hash = Hash::new(kind, asked);
                let bytes = vec![7; capacity + 1];
                assert_eq!(hash.capacity(), capacity);
                assert_eq!(hash.digest(&bytes[1..]), Ok(kind.rule(&bytes[1..])));
                assert_eq!(hash.digest(&bytes), Err(REFUSED));
            }
        }
    }

    #[test]
    fn a_label_goes_before_the_bytes() {
        for kind in Kind::BOTH {
            let labelled = Hash::new(kind, 12).labelled(LABEL);
            assert_eq!(labelled.capacity(), 4);
            assert_eq!(labelled.digest(&[b"ab", b"", b"cd"]), Ok(kind.rule(b"PALOMAGGabcd")));
            assert_eq!(labelled.digest(&[b"abcde"]), Err(REFUSED));
        }
    }

    #[test]
    fn a_label_that_does_not_fit_is_left_out() {
        for kind in Kind::BOTH {
            for (below, rule) in [(8, kind.rule(&LABEL)), (7, kind.rule(b"")), (0, kind.rule(b""))]
            {
                let labelled = Hash::new(kind, below).labelled(LABEL);
                assert_eq!(labelled.capacity(), 0);
                assert_eq!(labelled.digest(&[]), Ok(rule));
            }
        }
    }
}
