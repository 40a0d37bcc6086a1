//! The levels and their lengths.

use crate::field::Field;

/// Work memory, counted in the items of its three slices.
#[derive(Clone, Copy, Debug, PartialEq, Eq)]
pub struct Room {
    pub bytes: usize,
    pub places: usize,
    pub positions: usize,
}

#[derive(Debug)]
pub struct Level {
    pub name: &'static str,
    /// Bits of a field element.
    pub m: usize,
    /// Bits of a vector.
    pub n: usize,
    /// Ones of an error vector.
    pub t: usize,
    /// The least work memory.
    pub room: Room,
}

pub const SEED: usize = 32;
pub const HEAD: usize = 32;
pub const KEY: usize = 32;
pub const LABEL: usize = 8;
/// The most mixing seeds that a make takes.
pub const MIXING_SEEDS: usize = 64;

const SMALL: Room = Room { bytes: 4_096, places: 512, positions: 512 };
const LARGE: Room = Room { bytes: 2_097_152, places: 16_384, positions: 16_384 };

pub const LEVELS: [Level; 4] = [
    Level { name: "sample", m: 6, n: 56, t: 4, room: SMALL },
    Level { name: "128", m: 13, n: 3_904, t: 64, room: LARGE },
    Level { name: "192", m: 13, n: 5_568, t: 128, room: LARGE },
    Level { name: "256", m: 13, n: 6_592, t: 128, room: LARGE },
];

impl Level {
    pub fn named(name: &[u8]) -> Option<&'static Level> {
        LEVELS.iter().find(|level| level.name.as_bytes() == name)
    }

    pub fn field(&self) -> &'static Field {
        Field::with_bits(self.m)
    }

    /// Rows of the matrix, and bits of a body.
    pub fn rows(&self) -> usize {
        self.m * self.t
    }

    pub fn body(&self) -> usize {
        self.rows() / 8
    }

    pub fn vector(&self) -> usize {
        self.n / 8
    }

    /// Bytes of one row of a public key.
    pub fn row(&self) -> usize {
        (self.n - self.rows()) / 8
    }

    pub fn public_key(&self) -> usize {
        self.rows() * self.row()
    }

    pub fn secret_key(&self) -> usize {
        2 * (self.n + self.t) + self.rows() * self.body() + 2 * SEED
    }

    pub fn ticket(&self) -> usize {
        HEAD + self.body()
    }

    /// What the longest message of a seal asks of a hash.
    pub fn capacity(&self) -> usize {
        LABEL + self.vector() + self.ticket()
    }
}

#[cfg(test)]
mod tests {
    use super::*;

    #[test]
    fn lengths() {
        let table: [[usize; 7]; 4] = [
            [24, 3, 7, 96, 256, 35, 50],
            [832, 104, 488, 319_488, 94_528, 136, 632],
            [1_664, 208, 696, 812_032, 357_568, 240, 944],
            [1_664, 208, 824, 1_025_024, 359_616, 240, 1_072],
        ];
        for (level, lengths) in LEVELS.iter().zip(table) {
            let computed = [
                level.rows(),
                level.body(),
                level.vector(),
                level.public_key(),
                level.secret_key(),
                level.ticket(),
                level.capacity(),
            ];
            assert_eq!(computed, lengths, "{}", level.name);
        }
    }

    #[test]
    fn only_the_exact_names() {
        for level in &LEVELS {
            assert_eq!(Level::named(level.name.as_bytes()).map(|found| found.n), Some(level.n));
        }
        for name in ["", "160", "Sample", "sample ", "sampl", "0128", "12"] {
            assert!(Level::named(name.as_bytes()).is_none(), "{name}");
        }
    }
}
