//! Polynomials over a field, as lists of their coefficients, that of X^0 first.
//! The last coefficient is not zero, so that of zero there is none.

use crate::field::Field;

pub fn product(field: &Field, a: &[u16], b: &[u16]) -> Vec<u16> {
    if a.is_empty() || b.is_empty() {
        return Vec::new();
    }
    let mut product = vec![0; a.len() + b.len() - 1];
    for (i, &factor) in a.iter().enumerate() {
        add_multiple(field, &mut product[i..], factor, b);
    }
    product
}

/// Quotient and remainder; there are none by zero.
pub fn divide(field: &Field, a: &[u16], by: &[u16]) -> Option<(Vec<u16>, Vec<u16>)> {
    let (&leading, lower) = by.split_last()?;
    let unit = field.inverse(leading)?;
    let mut rest = a.to_vec();
    let mut quotient = vec![0; (a.len() + 1).saturating_sub(by.len())];
    for (i, place) in quotient.iter_mut().enumerate().rev() {
        *place = field.product(rest.pop().expect("longer than the divisor"), unit);
        add_multiple(field, &mut rest[i..], *place, lower);
    }
    while rest.last() == Some(&0) {
        rest.pop();
    }
    Some((quotient, rest))
}

/// Adds `factor` times the terms to the first ones of the sum.
fn add_multiple(field: &Field, sum: &mut [u16], factor: u16, terms: &[u16]) {
    for (place, &term) in sum.iter_mut().zip(terms) {
        *place ^= field.product(factor, term);
    }
}

/// The value at x.
pub fn value(field: &Field, a: &[u16], x: u16) -> u16 {
    a.iter().rev().fold(0, |sum, coefficient| field.product(sum, x) ^ coefficient)
}

/// The monic polynomial with these zeros, each as often as it stands there.
pub fn with_zeros(field: &Field, zeros: &[u16]) -> Vec<u16> {
    zeros.iter().fold(vec![1], |g, &zero| product(field, &g, &[zero, 1]))
}

#[cfg(test)]
mod tests {
    use super::*;
    use crate::random::Random;

    #[test]
    fn worked_example() {
        for field in [6, 13].map(Field::with_bits) {
            assert_eq!(product(field, &[1, 1], &[2, 1]), [2, 3, 1]);
            assert_eq!(with_zeros(field, &[1, 2]), [2, 3, 1]);
        }
    }

    #[test]
    fn the_zeros_are_where_the_value_is_zero() {
        let mut random = Random::new(21);
        for field in [6, 13].map(Field::with_bits) {
            let zeros = elements(field, 5, &mut random);
            let g = with_zeros(field, &zeros);
            assert_eq!((g.len(), g[5]), (6, 1));
            for x in 0..1 << field.m {
                assert_eq!(value(field, &g, x) == 0, zeros.contains(&x));
            }
        }
    }

    #[test]
    fn quotient_times_divisor_plus_remainder() {
        let mut random = Random::new(22);
        for field in [6, 13].map(Field::with_bits) {
            assert_eq!(divide(field, &[1, 2], &[]), None);
            for _ in 0..2_000 {
                let [a, by] = [12, 8].map(|bound| {
                    let length = random.below(bound);
                    polynomial(field, length, &mut random)
                });
                let Some((quotient, rest)) = divide(field, &a, &by) else {
                    assert!(by.is_empty());
                    continue;
                };
                assert!(rest.len() < by.len() && rest.last() != Some(&0));
                let mut sum = product(field, &quotient, &by);
                sum.resize(a.len(), 0);
                add_multiple(field, &mut sum, 1, &rest);
                assert_eq!(sum, a);
            }
        }
    }

    /// Of this many coefficients.
    fn polynomial(field: &Field, length: usize, random: &mut Random) -> Vec<u16> {
        let mut coefficients = elements(field, length, random);
        if let Some(last) = coefficients.last_mut() {
            *last = (*last).max(1);
        }
        coefficients
    }

    fn elements(field: &Field, count: usize, random: &mut Random) -> Vec<u16> {
        random.numbers16(count).into_iter().map(|number| number >> (16 - field.m)).collect()
    }
}
