//! Sealing a ticket.

use crate::bits::times;
use crate::checks;
use crate::fault::{Fault, Layer};
use crate::hash::Hash;
use crate::level::{Level, Room, HEAD, KEY, SEED};
use crate::shuffle::{error_vector, order, perm, Seed};

const HEAD_LABEL: [u8; 8] = *b"PALOMAGG";
const KEY_LABEL: [u8; 8] = *b"PALOMAHH";

/// What a seal is given, but for its outputs. Of the work memory the twin looks
/// at the sizes alone.
#[derive(Clone, Copy)]
pub struct Order<'a> {
    pub level: &'a [u8],
    pub public_key: &'a [u8],
    pub ticket_seed: &'a [u8],
    pub hash: Hash,
    pub room: Room,
}

/// Writes ticket and key, or refuses and leaves both as they are.
pub fn seal(order: &Order, ticket: &mut [u8], key: &mut [u8]) -> Result<(), Fault> {
    let level = checks::level(order.level)?;
    checks::lengths(&[
        order.public_key.len() == level.public_key(),
        order.ticket_seed.len() == SEED,
        ticket.len() == level.ticket(),
        key.len() == KEY,
    ])?;
    checks::room(level, order.room)?;
    if order.hash.capacity() < level.capacity() {
        return Err(Fault::new(5, Layer::Hash, 0));
    }
    let seed: &Seed = order.ticket_seed.try_into().expect("checked above");
    let vector = error_vector(level.n, level.t, seed);
    let head = head(order.hash, &vector)?;
    let body = body(level, order.public_key, &vector, &head);
    key.copy_from_slice(&ticket_key(order.hash, &vector, &head, &body)?);
    ticket[..HEAD].copy_from_slice(&head);
    ticket[HEAD..].copy_from_slice(&body);
    Ok(())
}

/// The head of the ticket that seals this error vector.
pub fn head(hash: Hash, vector: &[u8]) -> Result<[u8; 32], Fault> {
    hash.labelled(HEAD_LABEL).digest(&[vector])
}

/// The key of the ticket that seals this error vector.
pub fn ticket_key(hash: Hash, vector: &[u8], head: &[u8], body: &[u8]) -> Result<[u8; 32], Fault> {
    hash.labelled(KEY_LABEL).digest(&[vector, head, body])
}

/// [I | M] times the error vector permuted by the head.
fn body(level: &Level, public_key: &[u8], vector: &[u8], head: &Seed) -> Vec<u8> {
    let permuted = perm(&order(level.n, head), vector);
    let (left, right) = permuted.split_at(level.body());
    let product = times(public_key, right);
    left.iter().zip(product).map(|(bits, sums)| bits ^ sums).collect()
}

#[cfg(test)]
mod tests {
    use super::*;
    use crate::bits::bit;
    use crate::hash::{Kind, CAPACITY};
    use crate::level::LEVELS;
    use crate::random::Random;

    #[test]
    fn a_body_is_the_product_bit_by_bit() {
        let mut random = Random::new(4);
        for level in &LEVELS {
            let public_key = random.bytes(level.public_key());
            let vector = random.bytes(level.vector());
            let head = random.seed();
            let permuted = perm(&order(level.n, &head), &vector);
            let rows = level.rows();
            let entry = |r: usize, j: usize| {
                if j < rows {
                    r == j
                } else {
                    bit(&public_key, r * (level.n - rows) + j - rows)
                }
            };
            let body = body(level, &public_key, &vector, &head);
            for r in 0..rows {
                let ones = (0..level.n).filter(|&j| entry(r, j) && bit(&permuted, j)).count();
                assert_eq!(bit(&body, r), ones % 2 == 1, "{} row {r}", level.name);
            }
        }
    }

    #[test]
    fn the_first_row_that_applies_answers() {
        let hash = Hash::new(Kind::Sha3, 0);
        let room = Room { bytes: 4_096, places: 511, positions: 0 };
        let order =
            Order { level: b"sample", public_key: &[1; 96], ticket_seed: &[2; 32], hash, room };
        let (mut ticket, mut key) = ([3; 35], [4; 32]);
        let mut answer = |order: Order| {
            let answer = seal(&order, &mut ticket, &mut key);
            assert_eq!((ticket, key) == ([3; 35], [4; 32]), answer.is_err());
            answer
        };
        let room = LEVELS[0].room;
        let elsewhere = Order { level: b"160", public_key: &[], ..order };
        assert_eq!(answer(elsewhere), Err(Fault::new(1, Layer::Call, 0)));
        let short_seed = Order { ticket_seed: &[2; 31], ..order };
        assert_eq!(answer(short_seed), Err(Fault::new(3, Layer::Call, 1)));
        assert_eq!(answer(order), Err(Fault::new(4, Layer::Call, 1)));
        let narrow = Order { hash: Hash::new(Kind::Sha3, 49), room, ..order };
        assert_eq!(answer(narrow), Err(Fault::new(5, Layer::Hash, 0)));
        let just_enough = Order { hash: Hash::new(Kind::Sha3, 50), room, ..order };
        assert_eq!(answer(just_enough), Ok(()));
        assert!(LEVELS.iter().all(|level| level.capacity() <= CAPACITY));
    }
}
