//! The code of a seed: support, g and the matrix H; and the mixing of its columns.

use crate::field::Field;
use crate::level::Level;
use crate::matrix::Matrix;
use crate::polynomial::{divide, with_zeros};
use crate::shuffle::{order, shuffle, Seed};

pub struct Code {
    field: &'static Field,
    pub support: Vec<u16>,
    /// All coefficients of g, the leading one too.
    pub g: Vec<u16>,
}

impl Code {
    pub fn of_seed(level: &Level, seed: &Seed) -> Self {
        let field = level.field();
        let mut elements: Vec<u16> = (0..1 << level.m).collect();
        shuffle(&mut elements, seed);
        let (support, rest) = elements.split_at(level.n);
        Code { field, support: support.to_vec(), g: with_zeros(field, &rest[..level.t]) }
    }

    /// The matrix H.
    pub fn parity_check(&self) -> ParityCheck {
        let column = |&element| inverse_of_linear(self.field, &self.g, element);
        ParityCheck { m: self.field.m, columns: self.support.iter().map(column).collect() }
    }
}

/// The coefficients of the inverse of X - a modulo g, as many as the degree of g;
/// a is no zero of g. With g = q (X - a) + r the inverse is q / r.
fn inverse_of_linear(field: &Field, g: &[u16], a: u16) -> Vec<u16> {
    let (mut quotient, rest) = divide(field, g, &[a, 1]).expect("X - a is not zero");
    let unit = rest.first().and_then(|&value| field.inverse(value)).expect("a is no zero of g");
    for coefficient in &mut quotient {
        *coefficient = field.product(*coefficient, unit);
    }
    quotient
}

/// The matrix H, column by column, each as t elements of m bits.
pub struct ParityCheck {
    m: usize,
    columns: Vec<Vec<u16>>,
}

impl ParityCheck {
    /// HP for this mixing seed.
    pub fn mixed(&self, seed: &Seed) -> Matrix {
        Matrix::of_elements(self.m, &self.mixed_columns(seed))
    }

    /// As many of the first columns of HP as it has rows, if they are independent.
    pub fn usable(&self, seed: &Seed) -> Option<Matrix> {
        let columns = self.mixed_columns(seed);
        let left = Matrix::of_elements(self.m, &columns[..self.m * columns[0].len()]);
        left.clone().triangulate().then_some(left)
    }

    fn mixed_columns(&self, seed: &Seed) -> Vec<&[u16]> {
        let order = order(self.columns.len(), seed);
        order.iter().map(|&position| &self.columns[position as usize][..]).collect()
    }
}

#[cfg(test)]
mod tests {
    use super::*;
    use crate::level::LEVELS;
    use crate::polynomial::{product, value};
    use crate::random::Random;

    #[test]
    fn worked_example() {
        assert_eq!(inverse_of_linear(Field::with_bits(6), &[2, 3, 1], 0), [32, 33]);
    }

    #[test]
    fn support_and_zeros_are_different_elements() {
        let mut random = Random::new(26);
        for level in &LEVELS {
            let code = Code::of_seed(level, &random.seed());
            assert_eq!((code.support.len(), code.g.len()), (level.n, level.t + 1));
            assert_eq!(code.g.last(), Some(&1));
            let mut outside: Vec<u16> = (0..1 << level.m).collect();
            outside.retain(|element| !code.support.contains(element));
            assert_eq!(outside.len(), (1 << level.m) - level.n);
            outside.retain(|&element| value(code.field, &code.g, element) == 0);
            assert_eq!(outside.len(), level.t);
        }
    }

    #[test]
    fn a_column_is_the_inverse_modulo_g() {
        let mut random = Random::new(27);
        for level in &LEVELS {
            let code = Code::of_seed(level, &random.seed());
            for (column, &element) in code.parity_check().columns.iter().zip(&code.support) {
                assert_eq!(column.len(), level.t);
                let one = product(code.field, column, &[element, 1]);
                let (_, rest) = divide(code.field, &one, &code.g).expect("g is not zero");
                assert_eq!(rest, [1], "{}, the column of {element}", level.name);
            }
        }
    }

    /// A from the coefficients of g, B from the powers of the support, C from the
    /// inverses of the values of g.
    #[test]
    fn the_columns_are_a_product_of_three_matrices() {
        let mut random = Random::new(28);
        for level in &LEVELS[..2] {
            let code = Code::of_seed(level, &random.seed());
            let field = code.field;
            for (column, &element) in code.parity_check().columns.iter().zip(&code.support) {
                let powers: Vec<u16> =
                    std::iter::successors(Some(1), |&power| Some(field.product(power, element)))
                        .take(level.t)
                        .collect();
                let unit = field.inverse(value(field, &code.g, element)).expect("not zero");
                let row = |r: usize| {
                    let terms = code.g[r + 1..].iter().zip(&powers);
                    let sum = terms.fold(0, |sum, (&g, &power)| sum ^ field.product(g, power));
                    field.product(sum, unit)
                };
                assert_eq!(*column, (0..level.t).map(row).collect::<Vec<_>>());
            }
        }
    }
}
