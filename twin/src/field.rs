//! The fields of 64 and of 8,192 elements, by tables of the powers of z and of
//! their logarithms. z generates both: all elements but zero are powers of it.
//!
//! An element is its number; a sum is the exclusive or of two numbers.

use std::sync::LazyLock;

pub struct Field {
    /// Bits of an element.
    pub m: usize,
    /// z to the power i, for all sums i of two logarithms.
    powers: Vec<u16>,
    /// The i below 2^m - 1 for which z to the power i is the element; zero has none,
    /// and its entry is never looked at.
    logarithms: Vec<u16>,
}

impl Field {
    /// The field whose elements have m bits.
    pub fn with_bits(m: usize) -> &'static Field {
        static SMALL: LazyLock<Field> = LazyLock::new(|| Field::reduced_by(1 << 6 | 0b11));
        static LARGE: LazyLock<Field> = LazyLock::new(|| Field::reduced_by(1 << 13 | 0b1110_0001));
        match m {
            6 => &SMALL,
            13 => &LARGE,
            _ => panic!("no field with elements of {m} bits"),
        }
    }

    /// Bit i of `polynomial` is its coefficient of z^i.
    fn reduced_by(polynomial: u16) -> Field {
        let m = polynomial.ilog2() as usize;
        let period = (1 << m) - 1;
        let mut powers = vec![1; 2 * period];
        for i in 1..powers.len() {
            let next = powers[i - 1] << 1;
            powers[i] = if next >> m == 1 { next ^ polynomial } else { next };
        }
        let mut logarithms = vec![0; 1 << m];
        for (i, &power) in (0..).zip(&powers[..period]) {
            logarithms[usize::from(power)] = i;
        }
        Field { m, powers, logarithms }
    }

    /// How many different powers z has.
    fn period(&self) -> usize {
        (1 << self.m) - 1
    }

    fn logarithm(&self, a: u16) -> usize {
        self.logarithms[usize::from(a)].into()
    }

    pub fn product(&self, a: u16, b: u16) -> u16 {
        if a == 0 || b == 0 {
            return 0;
        }
        self.powers[self.logarithm(a) + self.logarithm(b)]
    }

    pub fn inverse(&self, a: u16) -> Option<u16> {
        (a != 0).then(|| self.powers[self.period() - self.logarithm(a)])
    }

    /// The element whose square is `a`. The period is odd, so of a logarithm and its
    /// sum with the period one is even.
    pub fn root(&self, a: u16) -> u16 {
        if a == 0 {
            return 0;
        }
        let logarithm = self.logarithm(a);
        self.powers[(logarithm + logarithm % 2 * self.period()) / 2]
    }
}

#[cfg(test)]
mod tests {
    use super::*;
    use crate::random::Random;

    #[test]
    fn worked_examples() {
        let small = Field::with_bits(6);
        assert_eq!(small.product(32, 2), 3);
        assert_eq!(small.product(32, 32), 48);
        assert_eq!(small.inverse(2), Some(33));
        assert_eq!(small.root(48), 32);
        let large = Field::with_bits(13);
        assert_eq!(large.product(4_096, 2), 225);
        assert_eq!(large.product(4_096, 4_096), 7_480);
        assert_eq!(large.inverse(2), Some(4_208));
        assert_eq!(large.root(7_480), 4_096);
    }

    #[test]
    fn inverses_and_roots_of_all_elements() {
        for field in [6, 13].map(Field::with_bits) {
            assert_eq!(field.inverse(0), None);
            for a in 0..1 << field.m {
                let root = field.root(a);
                assert_eq!(field.product(root, root), a);
                assert!(root >> field.m == 0);
                if let Some(inverse) = field.inverse(a) {
                    assert_eq!(field.product(a, inverse), 1);
                    assert!(inverse >> field.m == 0);
                }
            }
        }
    }

    #[test]
    fn products_are_remainders_of_products() {
        let mut random = Random::new(20);
        for a in 0..64 {
            for b in 0..64 {
                assert_eq!(Field::with_bits(6).product(a, b), remainder(a, b, 0b100_0011));
            }
        }
        for _ in 0..100_000 {
            let [a, b] = [0; 2].map(|_| random.below(8_192) as u16);
            assert_eq!(
                Field::with_bits(13).product(a, b),
                remainder(a, b, 0b10_0000_1110_0001),
                "{a} times {b}"
            );
        }
    }

    /// The product of two polynomials in z by the school's method, and then its
    /// remainder.
    fn remainder(a: u16, b: u16, polynomial: u32) -> u16 {
        let shifted = (0..16).filter(|i| b >> i & 1 == 1).map(|i| u32::from(a) << i);
        let mut rest = shifted.fold(0, |sum, term| sum ^ term);
        while rest != 0 && rest.ilog2() >= polynomial.ilog2() {
            rest ^= polynomial << (rest.ilog2() - polynomial.ilog2());
        }
        rest as u16
    }
}
