//! Making a pair of keys.

use crate::checks;
use crate::code::Code;
use crate::fault::{Fault, Layer};
use crate::level::{Room, MIXING_SEEDS, SEED};
use crate::shuffle::Seed;

/// What a make is given, but for its outputs. Of the work memory the twin looks at
/// the sizes alone.
#[derive(Clone, Copy)]
pub struct Order<'a> {
    pub level: &'a [u8],
    pub code_seed: &'a [u8],
    /// One seed after the other.
    pub mixing_seeds: &'a [u8],
    pub decoy_seed: &'a [u8],
    pub room: Room,
}

/// Writes both keys, or refuses and leaves them as they are.
pub fn make(order: &Order, public_key: &mut [u8], secret_key: &mut [u8]) -> Result<(), Fault> {
    let level = checks::level(order.level)?;
    let (mixing_seeds, part) = order.mixing_seeds.as_chunks::<SEED>();
    checks::lengths(&[
        order.code_seed.len() == SEED,
        part.is_empty() && mixing_seeds.len() <= MIXING_SEEDS,
        order.decoy_seed.len() == SEED,
        public_key.len() == level.public_key(),
        secret_key.len() == level.secret_key(),
    ])?;
    checks::room(level, order.room)?;
    let code_seed: &Seed = order.code_seed.try_into().expect("checked above");
    let code = Code::of_seed(level, code_seed);
    let parity_check = code.parity_check();
    let (mixing_seed, left) = mixing_seeds
        .iter()
        .find_map(|seed| parity_check.usable(seed).map(|left| (seed, left)))
        .ok_or(Fault::new(6, Layer::Key, mixing_seeds.len()))?;
    let mut echelon = parity_check.mixed(mixing_seed);
    assert!(echelon.triangulate(), "the seed is usable");
    echelon.reduce_triangle();
    let rows = level.rows();
    public_key.copy_from_slice(&echelon.packed(rows..level.n));
    let elements = [&code.support[..], &code.g[..level.t]].concat();
    let parts = [
        &elements.iter().flat_map(|element| element.to_be_bytes()).collect::<Vec<u8>>()[..],
        &left.packed(0..rows),
        mixing_seed,
        order.decoy_seed,
    ];
    secret_key.copy_from_slice(&parts.concat());
    Ok(())
}

#[cfg(test)]
mod tests {
    use super::*;
    use crate::bits::times;
    use crate::code::ParityCheck;
    use crate::level::{Level, LEVELS};
    use crate::random::Random;

    /// Each column of HP is S^-1 times the column of [I | M] at its place: tried
    /// with sums of random columns.
    #[test]
    fn mixed_columns_are_sums_of_the_first_ones() {
        let mut random = Random::new(29);
        for level in &LEVELS {
            let (code_seed, mixing_seeds) = (random.seed(), random.bytes(64 * SEED));
            let (public_key, secret_key) = pair(level, &code_seed, &mixing_seeds);
            let end = secret_key.len() - 2 * SEED;
            let left = &secret_key[2 * (level.n + level.t)..end];
            let mixing_seed = secret_key[end..][..SEED].try_into().expect("a seed");
            let mixed = Code::of_seed(level, &code_seed).parity_check().mixed(&mixing_seed);
            let mixed = mixed.packed(0..level.n);
            for _ in 0..10 {
                let vector = random.bytes(level.vector());
                let (front, back) = vector.split_at(level.body());
                let mut body = times(&public_key, back);
                body.iter_mut().zip(front).for_each(|(sum, byte)| *sum ^= byte);
                assert_eq!(times(left, &body), times(&mixed, &vector), "{}", level.name);
            }
        }
    }

    #[test]
    fn the_first_usable_seed_is_taken() {
        let mut random = Random::new(30);
        for (level, rounds) in LEVELS.iter().zip([20, 1, 1, 1]) {
            for _ in 0..rounds {
                let code_seed = random.seed();
                let parity_check = Code::of_seed(level, &code_seed).parity_check();
                let [unusable, usable, other] =
                    [false, true, true].map(|wanted| seed(&parity_check, wanted, &mut random));
                let list = [unusable, usable, unusable, other].concat();
                assert_eq!(pair(level, &code_seed, &list), pair(level, &code_seed, &usable));
                assert_ne!(pair(level, &code_seed, &list), pair(level, &code_seed, &other));
                let list = [unusable; 3].concat();
                let refused = Err(Fault::new(6, Layer::Key, 3));
                assert_eq!(try_pair(level, &code_seed, &list), refused);
            }
        }
    }

    #[test]
    fn the_first_row_that_applies_answers() {
        let level = &LEVELS[0];
        let room = Room { bytes: 4_096, places: 511, positions: 0 };
        let order = Order {
            level: b"sample",
            code_seed: &[1; 32],
            mixing_seeds: &[],
            decoy_seed: &[2; 32],
            room,
        };
        let answer = |order: Order, public_key: usize, secret_key: usize| {
            let (mut public_key, mut secret_key) = (vec![3; public_key], vec![4; secret_key]);
            let answer = make(&order, &mut public_key, &mut secret_key);
            assert!(public_key.iter().all(|&byte| byte == 3));
            assert!(secret_key.iter().all(|&byte| byte == 4));
            answer.map_err(|fault| (fault.number, fault.layer, fault.place))
        };
        let wrong = Order { code_seed: &[1; 33], mixing_seeds: &[0; 31], decoy_seed: &[], ..order };
        let elsewhere = Order { level: b"160", ..wrong };
        assert_eq!(answer(elsewhere, 0, 0), Err((1, Layer::Call, 0)));
        assert_eq!(answer(wrong, 0, 0), Err((3, Layer::Call, 0)));
        for length in [1, 31, 33, 2_047, 2_049, 2_080, 4_096] {
            let wrong = Order { code_seed: &[1; 32], mixing_seeds: &vec![0; length], ..wrong };
            assert_eq!(answer(wrong, 0, 0), Err((3, Layer::Call, 1)), "{length}");
        }
        let wrong = Order { decoy_seed: &[2; 31], mixing_seeds: &[0; 2_048], ..order };
        assert_eq!(answer(wrong, 0, 0), Err((3, Layer::Call, 2)));
        for length in [0, 95, 97] {
            assert_eq!(answer(order, length, 0), Err((3, Layer::Call, 3)));
        }
        for length in [0, 255, 257] {
            assert_eq!(answer(order, 96, length), Err((3, Layer::Call, 4)));
        }
        assert_eq!(answer(order, 96, 256), Err((4, Layer::Call, 1)));
        let order = Order { room: level.room, ..order };
        assert_eq!(answer(order, 96, 256), Err((6, Layer::Key, 0)));
    }

    fn try_pair(
        level: &Level,
        code_seed: &[u8],
        mixing_seeds: &[u8],
    ) -> Result<(Vec<u8>, Vec<u8>), Fault> {
        let order = Order {
            level: level.name.as_bytes(),
            code_seed,
            mixing_seeds,
            decoy_seed: &[5; 32],
            room: level.room,
        };
        let (mut public_key, mut secret_key) =
            (vec![0; level.public_key()], vec![0; level.secret_key()]);
        make(&order, &mut public_key, &mut secret_key)?;
        Ok((public_key, secret_key))
    }

    fn pair(level: &Level, code_seed: &[u8], mixing_seeds: &[u8]) -> (Vec<u8>, Vec<u8>) {
        try_pair(level, code_seed, mixing_seeds).expect("a usable seed")
    }

    fn seed(parity_check: &ParityCheck, usable: bool, random: &mut Random) -> Seed {
        loop {
            let seed = random.seed();
            if parity_check.usable(&seed).is_some() == usable {
                return seed;
            }
        }
    }
}
