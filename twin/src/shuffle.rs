//! Shuffle, Perm, PermInv and the error vector of a seed.

use crate::bits::{bit, flip};

pub type Seed = [u8; 32];

/// Rearranges the items by the sixteen words of the seed.
pub fn shuffle<T>(items: &mut [T], seed: &Seed) {
    let words: [u16; 16] =
        std::array::from_fn(|w| u16::from_be_bytes([seed[2 * w], seed[2 * w + 1]]));
    for (i, &word) in (1..items.len()).rev().zip(words.iter().cycle()) {
        items.swap(i, usize::from(word) % (i + 1));
    }
}

/// The numbers below n, shuffled.
pub fn order(n: usize, seed: &Seed) -> Vec<u32> {
    let mut order: Vec<u32> = (0..).take(n).collect();
    shuffle(&mut order, seed);
    order
}

/// Bit j of the packed vector goes to place `order[j]`.
pub fn perm(order: &[u32], vector: &[u8]) -> Vec<u8> {
    let mut moved = vec![0; vector.len()];
    for (j, &place) in order.iter().enumerate() {
        if bit(vector, j) {
            flip(&mut moved, place as usize);
        }
    }
    moved
}

/// Bit `order[j]` of the packed vector goes to place j.
pub fn perm_inv(order: &[u32], vector: &[u8]) -> Vec<u8> {
    let mut moved = vec![0; vector.len()];
    for (j, &place) in order.iter().enumerate() {
        if bit(vector, place as usize) {
            flip(&mut moved, j);
        }
    }
    moved
}

/// GenErrVec: n packed bits, with ones at the first t of the shuffled numbers.
pub fn error_vector(n: usize, t: usize, seed: &Seed) -> Vec<u8> {
    let mut vector = vec![0; n.div_ceil(8)];
    for &place in &order(n, seed)[..t] {
        flip(&mut vector, place as usize);
    }
    vector
}

#[cfg(test)]
mod tests {
    use super::*;
    use crate::bits::ones;
    use crate::level::LEVELS;
    use crate::random::Random;

    #[test]
    fn worked_examples() {
        let mut words = [0; 32];
        for (w, word) in [7, 2, 5, 1].into_iter().enumerate() {
            words[2 * w + 1] = word;
        }
        assert_eq!(order(5, &[0; 32]), [1, 2, 3, 4, 0]);
        assert_eq!(order(5, &words), [0, 1, 3, 4, 2]);
        assert_eq!(perm(&[1, 2, 3, 4, 0], &[0b1000_0000]), [0b0100_0000]);
        assert_eq!(perm_inv(&[1, 2, 3, 4, 0], &[0b1000_0000]), [0b0000_1000]);
        assert_eq!(error_vector(56, 4, &[0; 32]), [0x78, 0, 0, 0, 0, 0, 0]);
    }

    #[test]
    fn each_undoes_the_other() {
        let mut random = Random::new(2);
        for length in 0..50 {
            let vector = random.bytes(length);
            let order = order(8 * length, &random.seed());
            assert_eq!(perm_inv(&order, &perm(&order, &vector)), vector);
            assert_eq!(perm(&order, &perm_inv(&order, &vector)), vector);
        }
    }

    #[test]
    fn error_vectors_have_weight_t() {
        let mut random = Random::new(3);
        for level in &LEVELS {
            let vector = error_vector(level.n, level.t, &random.seed());
            assert_eq!(vector.len(), level.vector());
            assert_eq!(ones(&vector) as usize, level.t);
        }
    }
}
