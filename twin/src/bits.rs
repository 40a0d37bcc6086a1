//! Bit vectors packed in bytes: bit j lies in byte j div 8 with the weight
//! 2^(7 - j mod 8).

/// Bit j of a packed vector.
pub fn bit(vector: &[u8], j: usize) -> bool {
    vector[j / 8] & weight(j) != 0
}

/// Changes bit j of a packed vector.
pub fn flip(vector: &mut [u8], j: usize) {
    vector[j / 8] ^= weight(j);
}

/// How many bits of a packed vector are ones.
pub fn ones(vector: &[u8]) -> u32 {
    vector.iter().map(|byte| byte.count_ones()).sum()
}

fn weight(j: usize) -> u8 {
    0x80 >> (j % 8)
}

/// A packed matrix, of as many columns as the vector has bits, times the vector.
pub fn times(matrix: &[u8], vector: &[u8]) -> Vec<u8> {
    let rows = matrix.chunks_exact(vector.len());
    let mut product = vec![0; rows.len().div_ceil(8)];
    let vector = words(vector);
    for (r, row) in rows.enumerate() {
        if inner_product(row, &vector) {
            flip(&mut product, r);
        }
    }
    product
}

/// The same bits in 64-bit words, the last one filled up with zeros. Words of
/// two vectors fit each other; a bit's place within its word is of no account.
fn words(vector: &[u8]) -> Vec<u64> {
    vector.chunks(8).map(word).collect()
}

/// The inner product, modulo 2, of a packed row with a vector in words.
fn inner_product(row: &[u8], vector: &[u64]) -> bool {
    let whole = row.chunks_exact(8);
    let rest = word(whole.remainder());
    let tail = vector.get(row.len() / 8).map_or(0, |last| rest & last);
    let sum = whole.zip(vector).fold(tail, |sum, (chunk, other)| sum ^ (word(chunk) & other));
    sum.count_ones() % 2 == 1
}

fn word(chunk: &[u8]) -> u64 {
    let mut bytes = [0; 8];
    bytes[..chunk.len()].copy_from_slice(chunk);
    u64::from_ne_bytes(bytes)
}

#[cfg(test)]
mod tests {
    use super::*;
    use crate::random::Random;

    #[test]
    fn first_bit_is_the_highest() {
        let mut vector = [0; 2];
        for j in [0, 7, 9] {
            flip(&mut vector, j);
        }
        assert_eq!(vector, [0x81, 0x40]);
        assert_eq!(ones(&vector), 3);
        assert!(bit(&vector, 9) && !bit(&vector, 8));
    }

    #[test]
    fn words_multiply_like_bits() {
        let mut random = Random::new(1);
        for length in 1..40 {
            let (matrix, vector) = (random.bytes(16 * length), random.bytes(length));
            let product = times(&matrix, &vector);
            assert_eq!(product.len(), 2);
            for (r, row) in matrix.chunks(length).enumerate() {
                let ones = (0..8 * length).filter(|&j| bit(row, j) && bit(&vector, j)).count();
                assert_eq!(bit(&product, r), ones % 2 == 1, "row {r} of {length} bytes");
            }
        }
    }
}
