//! Bit matrices by rows of 64-bit words. Bit j of a row lies in word j div 64 with
//! the weight 2^(63 - j mod 64), so that the bytes of the words, each with its high
//! byte first, are the packed row.

use std::ops::Range;

#[derive(Clone, Debug, PartialEq, Eq)]
pub struct Matrix {
    rows: Vec<Vec<u64>>,
}

impl Matrix {
    /// The matrix with these columns of elements, each element m bits high, its bit
    /// of weight 1 first.
    pub fn of_elements(m: usize, columns: &[&[u16]]) -> Self {
        let elements = columns.first().map_or(0, |column| column.len());
        let mut rows = vec![Vec::with_capacity(columns.len().div_ceil(64)); m * elements];
        for block in columns.chunks(64) {
            for (r, rows) in rows.chunks_exact_mut(m).enumerate() {
                let mut words = [0; 16];
                for column in block {
                    for (i, word) in words.iter_mut().enumerate() {
                        *word = *word << 1 | u64::from(column[r] >> i & 1);
                    }
                }
                for (row, word) in rows.iter_mut().zip(words) {
                    row.push(word << (64 - block.len()));
                }
            }
        }
        Matrix { rows }
    }

    /// Whether the first columns, as many as there are rows, are independent. If so,
    /// row operations have made them a triangle with ones on the diagonal and zeros
    /// below; if not, they stopped on the way.
    pub fn triangulate(&mut self) -> bool {
        (0..self.rows.len()).all(|j| {
            let found = (j..self.rows.len()).find(|&r| has_bit(&self.rows[r], j));
            if let Some(r) = found {
                self.rows.swap(j, r);
                let (rest, below) = self.rows.split_at_mut(j + 1);
                clear(below, &rest[j], j);
            }
            found.is_some()
        })
    }

    /// Makes the triangle the unit matrix: with that, the whole is the reduced row
    /// echelon form.
    pub fn reduce_triangle(&mut self) {
        for j in (0..self.rows.len()).rev() {
            let (above, rest) = self.rows.split_at_mut(j);
            clear(above, &rest[0], j);
        }
    }

    /// These columns, row after row; the range begins and ends at whole bytes.
    pub fn packed(&self, columns: Range<usize>) -> Vec<u8> {
        let bytes = columns.start / 8..columns.end / 8;
        let mut packed = Vec::with_capacity(self.rows.len() * bytes.len());
        for row in &self.rows {
            let row: Vec<u8> = row.iter().flat_map(|word| word.to_be_bytes()).collect();
            packed.extend_from_slice(&row[bytes.clone()]);
        }
        packed
    }
}

fn has_bit(row: &[u64], j: usize) -> bool {
    row[j / 64] >> (63 - j % 64) & 1 == 1
}

/// Adds the pivot row, which is zero before its bit j, to each row that has this bit.
fn clear(rows: &mut [Vec<u64>], pivot: &[u64], j: usize) {
    let pivot = &pivot[j / 64..];
    for row in rows.iter_mut().filter(|row| has_bit(row, j)) {
        for (word, other) in row[j / 64..].iter_mut().zip(pivot) {
            *word ^= other;
        }
    }
}

#[cfg(test)]
mod tests {
    use super::*;
    use crate::bits::bit;
    use crate::random::Random;

    const M: usize = 8;

    #[test]
    fn elements_stand_upright() {
        let columns: [&[u16]; 8] =
            [&[1, 0], &[2, 0], &[4, 0], &[0, 1], &[0, 2], &[0, 4], &[7, 7], &[5, 2]];
        let rows = [0b1000_0011, 0b0100_0010, 0b0010_0011, 0b0001_0010, 0b0000_1011, 0b0000_0110];
        assert_eq!(Matrix::of_elements(3, &columns).packed(0..8), rows);
    }

    #[test]
    fn the_range_of_columns_is_cut_out() {
        let mut random = Random::new(23);
        let (columns, whole) = random_matrix(2, 136, &mut random);
        assert_eq!(whole.packed(16..128), of_columns(&columns[16..128]).packed(0..112));
        assert_eq!(whole.packed(0..136).len(), 16 * 17);
    }

    /// Row operations keep the sums of columns that are zero. So in the reduced
    /// matrix each column must name the ones among the first that it is the sum of.
    #[test]
    fn a_reduced_column_says_which_ones_it_is_the_sum_of() {
        let mut random = Random::new(24);
        let mut reduced = 0;
        for round in 0..100 {
            let size = [8, 24, 64, 72][round % 4];
            let width = size + 8 * random.below(20);
            let (columns, mut matrix) = random_matrix(size / M, width, &mut random);
            if !matrix.triangulate() {
                continue;
            }
            matrix.reduce_triangle();
            reduced += 1;
            let packed = matrix.packed(0..width);
            for (j, column) in columns.iter().enumerate() {
                let mut sum = vec![0; size / M];
                for r in (0..size).filter(|r| bit(&packed, r * width + j)) {
                    assert!(j >= size || r == j, "the unit matrix comes first");
                    sum.iter_mut().zip(&columns[r]).for_each(|(sum, element)| *sum ^= element);
                }
                assert_eq!(&sum, column, "column {j}");
            }
        }
        assert!(reduced > 15, "{reduced} of 100 are 29 on average");
    }

    #[test]
    fn dependent_columns_are_found() {
        let mut random = Random::new(25);
        for _ in 0..100 {
            let (mut columns, _) = random_matrix(9, 100, &mut random);
            let [a, b, c] = [0, 1, 2].map(|third| 24 * third + random.below(24));
            columns[c] = columns[a].iter().zip(&columns[b]).map(|(a, b)| a ^ b).collect();
            assert!(!of_columns(&columns).triangulate());
        }
    }

    fn random_matrix(
        elements: usize,
        width: usize,
        random: &mut Random,
    ) -> (Vec<Vec<u16>>, Matrix) {
        let mut column =
            || random.numbers16(elements).into_iter().map(|number| number >> (16 - M)).collect();
        let columns: Vec<Vec<u16>> = (0..width).map(|_| column()).collect();
        let matrix = of_columns(&columns);
        (columns, matrix)
    }

    fn of_columns(columns: &[Vec<u16>]) -> Matrix {
        Matrix::of_elements(M, &columns.iter().map(Vec::as_slice).collect::<Vec<_>>())
    }
}
