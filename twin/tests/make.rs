//! Pairs of keys made by the product beside the twin: on random data that is the
//! same on every run, and on the outside vectors.

mod common;

use common::data::{surplus, too_few, with_surplus, wrong_length, NO_LEVELS};
use common::product::{self, Work};
use common::seal_by_both;
use twin::cases::{makes, pairs};
use twin::code::{Code, ParityCheck};
use twin::fault::{report, Fault, Layer};
use twin::hash::{Hash, Kind};
use twin::level::{Level, Room, LEVELS, MIXING_SEEDS, SEED};
use twin::make::{make, Order};
use twin::random::Random;
use twin::seal;

/// Lengths of lists that are not made of 0 to 64 whole seeds.
const NO_LISTS: [usize; 12] = [1, 31, 33, 63, 65, 2_015, 2_017, 2_047, 2_049, 2_080, 2_112, 4_096];

const NO_USABLE_SEED: u8 = 6;

// Accepted makes

#[test]
fn pairs_at_every_level() {
    let mut random = Random::new(201);
    for (level, rounds) in LEVELS.iter().zip([1_000, 20, 8, 8]) {
        let mut made = 0;
        for round in 0..rounds {
            let code_seed = seed(round, &mut random);
            let mixing_seeds: Vec<[u8; 32]> =
                (0..1 + random.below(16)).map(|i| seed(round + i, &mut random)).collect();
            let order = Order {
                level: level.name.as_bytes(),
                code_seed: &code_seed,
                mixing_seeds: mixing_seeds.as_flattened(),
                decoy_seed: &random.seed(),
                room: with_surplus(level.room, &mut random),
            };
            let (answer, public_key, _) = make_to_random(&order, &mut random);
            if answer.is_ok() {
                assert_seals(level, &public_key, &mut random);
                made += 1;
            }
        }
        assert!(2 * made > rounds, "{made} pairs of {rounds} at {}", level.name);
    }
}

fn assert_seals(level: &Level, public_key: &[u8], random: &mut Random) {
    let order = seal::Order {
        level: level.name.as_bytes(),
        public_key,
        ticket_seed: &random.seed(),
        hash: Hash::full(Kind::BOTH[random.below(2)]),
        room: level.room,
    };
    let (mut ticket, mut key) = (random.bytes(level.ticket()), random.bytes(32));
    assert_eq!(seal_by_both(&order, &mut ticket, &mut key, random), Ok(()));
}

#[test]
fn unusable_seeds_are_passed_over() {
    let mut random = Random::new(202);
    for (level, counts) in
        LEVELS.iter().zip([&[0, 1, 2, 15, 63][..], &[0, 1, 4], &[0, 1, 3], &[0, 1, 7]])
    {
        for &before in counts {
            let seeds = Seeds::draw(level, &mut random);
            let [usable, other] = [0; 2].map(|_| seeds.usable(&mut random));
            let mut list: Vec<[u8; 32]> =
                (0..before).map(|_| seeds.unusable(&mut random)).collect();
            list.push(usable);
            list.extend([other, seeds.unusable(&mut random)]);
            list.truncate(MIXING_SEEDS);
            let order = seeds.order(list.as_flattened());
            let (answer, _, secret_key) = make_to_random(&order, &mut random);
            assert_eq!(answer, Ok(()), "{}, {before} unusable seeds", level.name);
            assert_eq!(secret_key[secret_key.len() - 2 * SEED..][..SEED], usable);
            assert!(secret_key.ends_with(&seeds.decoy_seed));
        }
    }
}

#[test]
fn the_most_seeds() {
    let mut random = Random::new(203);
    for level in &LEVELS {
        let seeds = Seeds::draw(level, &mut random);
        let usable = seeds.usable(&mut random);
        let list = [&usable[..], &random.bytes(MIXING_SEEDS * SEED)].concat();
        let (most, too_many) = (&list[..MIXING_SEEDS * SEED], &list[..]);
        let (answer, _, secret_key) = make_to_random(&seeds.order(most), &mut random);
        assert_eq!(answer, Ok(()), "{}", level.name);
        assert_eq!(secret_key[secret_key.len() - 2 * SEED..][..SEED], usable);
        let (answer, ..) = make_to_random(&seeds.order(too_many), &mut random);
        assert_eq!(answer, Err(Fault::new(3, Layer::Call, 1)), "{}", level.name);
    }
}

// Refused makes

#[test]
fn lists_without_a_usable_seed() {
    let mut random = Random::new(204);
    let counts: [&[usize]; 4] = [&[0, 1, 2, 3, 63, 64], &[0, 1, 2, 64], &[0, 1, 4], &[0, 1, 2]];
    for (level, counts) in LEVELS.iter().zip(counts) {
        let seeds = Seeds::draw(level, &mut random);
        for &count in counts {
            let list: Vec<[u8; 32]> = (0..count).map(|_| seeds.unusable(&mut random)).collect();
            let (answer, ..) = make_to_random(&seeds.order(list.as_flattened()), &mut random);
            let refused = Fault::new(NO_USABLE_SEED, Layer::Key, count);
            assert_eq!(answer, Err(refused), "{}, {count} seeds", level.name);
        }
    }
}

#[test]
fn lists_that_are_none() {
    let mut random = Random::new(205);
    for level in &LEVELS {
        let seeds = Seeds::draw(level, &mut random);
        let list = seeds.usable(&mut random).repeat(2 * MIXING_SEEDS);
        for length in NO_LISTS {
            let (answer, ..) = make_to_random(&seeds.order(&list[..length]), &mut random);
            let refused = Err(Fault::new(3, Layer::Call, 1));
            assert_eq!(answer, refused, "{}, {length} bytes", level.name);
        }
    }
}

#[test]
fn names_that_are_no_level() {
    let mut random = Random::new(206);
    let seeds = Seeds::draw(&LEVELS[0], &mut random);
    let usable = seeds.usable(&mut random);
    for name in NO_LEVELS {
        let order = Order { level: name, ..seeds.order(&usable) };
        let (answer, ..) = make_to_random(&order, &mut random);
        assert_eq!(answer, Err(Fault::new(1, Layer::Call, 0)), "{name:?}");
    }
}

#[test]
fn keys_of_another_level() {
    let mut random = Random::new(207);
    for level in &LEVELS {
        let seeds = Seeds::draw(level, &mut random);
        let usable = seeds.usable(&mut random);
        let order = seeds.order(&usable);
        for other in LEVELS.iter().filter(|other| other.name != level.name) {
            let mut public_key = random.bytes(other.public_key());
            let mut secret_key = random.bytes(other.secret_key());
            let answer = make_by_both(&order, &mut public_key, &mut secret_key, &mut random);
            assert_eq!(answer, Err(Fault::new(3, Layer::Call, 3)));
            let mut public_key = random.bytes(level.public_key());
            let answer = make_by_both(&order, &mut public_key, &mut secret_key, &mut random);
            assert_eq!(answer, Err(Fault::new(3, Layer::Call, 4)));
        }
    }
}

#[test]
fn buffers_of_a_wrong_length() {
    let mut random = Random::new(211);
    for level in &LEVELS {
        let seeds = Seeds::draw(level, &mut random);
        let usable = seeds.usable(&mut random);
        let right = [SEED, SEED, level.public_key(), level.secret_key()];
        for (i, place) in [0, 2, 3, 4].into_iter().enumerate() {
            for wrong in [0, 1, right[i] - 1, right[i] + 1, 2 * right[i]] {
                let mut lengths = right;
                lengths[i] = wrong;
                let order = Order {
                    code_seed: &seeds.code_seed.repeat(2)[..lengths[0]],
                    decoy_seed: &seeds.decoy_seed.repeat(2)[..lengths[1]],
                    ..seeds.order(&usable)
                };
                let (mut public_key, mut secret_key) =
                    (random.bytes(lengths[2]), random.bytes(lengths[3]));
                let answer = make_by_both(&order, &mut public_key, &mut secret_key, &mut random);
                let refused = Err(Fault::new(3, Layer::Call, place));
                assert_eq!(answer, refused, "{}, {wrong} bytes", level.name);
            }
        }
    }
}

#[test]
fn work_memory_that_is_too_short() {
    let mut random = Random::new(212);
    for level in &LEVELS {
        let seeds = Seeds::draw(level, &mut random);
        let usable = seeds.usable(&mut random);
        let least = [level.room.bytes, level.room.places, level.room.positions];
        for slice in 0..3 {
            for short in [0, 1, least[slice] / 2, least[slice] - 1] {
                let mut lengths = least.map(|least| least + surplus(&mut random));
                lengths[slice] = short;
                let [bytes, places, positions] = lengths;
                let room = Room { bytes, places, positions };
                let order = Order { room, ..seeds.order(&usable) };
                let (answer, ..) = make_to_random(&order, &mut random);
                let refused = Err(Fault::new(4, Layer::Call, slice));
                assert_eq!(answer, refused, "{}, {short} items", level.name);
            }
        }
    }
}

/// What can be wrong with a make, in the order in which it answers, but for the
/// last: that no seed is usable.
const FAULTS: [Fault; 9] = [
    Fault::new(1, Layer::Call, 0),
    Fault::new(3, Layer::Call, 0),
    Fault::new(3, Layer::Call, 1),
    Fault::new(3, Layer::Call, 2),
    Fault::new(3, Layer::Call, 3),
    Fault::new(3, Layer::Call, 4),
    Fault::new(4, Layer::Call, 0),
    Fault::new(4, Layer::Call, 1),
    Fault::new(4, Layer::Call, 2),
];

/// Every set of faults at once, at the large levels every set of two at most: the
/// first of them answers.
#[test]
fn the_first_fault_answers() {
    let mut random = Random::new(208);
    for level in &LEVELS {
        let seeds = Seeds::draw(level, &mut random);
        let (usable, unusable) = (seeds.usable(&mut random), seeds.unusable(&mut random));
        let most = if level.name == "sample" { u32::MAX } else { 2 };
        for wrong in (0..2_u32 << FAULTS.len()).filter(|wrong| wrong.count_ones() <= most) {
            let tried = random.below(3);
            let list = if is_wrong(wrong, FAULTS.len()) {
                unusable.repeat(tried)
            } else {
                usable.to_vec()
            };
            let expected = match FAULTS.get(wrong.trailing_zeros() as usize) {
                Some(fault) => Err(*fault),
                None if wrong != 0 => Err(Fault::new(NO_USABLE_SEED, Layer::Key, tried)),
                None => Ok(()),
            };
            let answer = make_with_faults(&seeds.order(&list), wrong, &mut random);
            assert_eq!(answer, expected, "{}, faults {wrong:010b}", level.name);
        }
    }
}

/// The make of this order, with fault i if bit i of `wrong` says so.
fn make_with_faults(order: &Order, wrong: u32, random: &mut Random) -> Result<(), Fault> {
    let level = Level::named(order.level).expect("a level");
    let [code_seed, decoy_seed, public_key, secret_key] =
        [(1, SEED), (3, SEED), (4, level.public_key()), (5, level.secret_key())].map(
            |(fault, right)| {
                if is_wrong(wrong, fault) {
                    wrong_length(right, random)
                } else {
                    right
                }
            },
        );
    let length = NO_LISTS[random.below(NO_LISTS.len())];
    let no_list = random.bytes(length);
    let [bytes, places, positions] =
        [(6, level.room.bytes), (7, level.room.places), (8, level.room.positions)].map(
            |(fault, least)| {
                if is_wrong(wrong, fault) {
                    too_few(least, random)
                } else {
                    least + surplus(random)
                }
            },
        );
    let order = Order {
        level: if is_wrong(wrong, 0) {
            NO_LEVELS[random.below(NO_LEVELS.len())]
        } else {
            order.level
        },
        code_seed: &order.code_seed.repeat(2)[..code_seed],
        mixing_seeds: if is_wrong(wrong, 2) { &no_list } else { order.mixing_seeds },
        decoy_seed: &order.decoy_seed.repeat(2)[..decoy_seed],
        room: Room { bytes, places, positions },
    };
    let (mut public_key, mut secret_key) = (random.bytes(public_key), random.bytes(secret_key));
    make_by_both(&order, &mut public_key, &mut secret_key, random)
}

fn is_wrong(wrong: u32, fault: usize) -> bool {
    wrong >> fault & 1 == 1
}

// Outside vectors

#[test]
fn outside_pairs() {
    let mut random = Random::new(209);
    let pairs = pairs();
    assert_eq!(pairs.len(), 6);
    for pair in pairs {
        let name = pair.level.name;
        let (answer, public_key, secret_key) = make_to_random(&pair.order(), &mut random);
        assert_eq!(answer, Ok(()), "{name}");
        assert!(pair.public_key.is(&public_key), "public key, {name}");
        assert!(pair.secret_key.is(&secret_key), "secret key, {name}");
        for case in pair.sealed {
            let order = seal::Order {
                level: name.as_bytes(),
                public_key: &public_key,
                ticket_seed: &case.seed,
                hash: Hash::full(case.kind),
                room: pair.level.room,
            };
            let (mut ticket, mut key) = (random.bytes(case.ticket.len()), random.bytes(32));
            assert_eq!(seal_by_both(&order, &mut ticket, &mut key, &mut random), Ok(()));
            assert_eq!((ticket, key), (case.ticket, case.key), "{name}");
        }
    }
}

#[test]
fn outside_answers() {
    let mut random = Random::new(210);
    let calls = makes();
    assert_eq!(calls.len(), 7);
    for call in calls {
        let (mut public_key, mut secret_key) = (call.public_key.clone(), call.secret_key.clone());
        let answer = make_by_both(&call.order(), &mut public_key, &mut secret_key, &mut random);
        assert_eq!(answer, call.answer, "{}", call.note);
    }
}

// Makes by both

/// Makes by the twin and by the product, the latter with work memory full of
/// leavings, and finds that both answer alike and leave the same outputs, that a
/// refusal leaves them as they were, and that the work memory is zero.
fn make_by_both(
    order: &Order,
    public_key: &mut [u8],
    secret_key: &mut [u8],
    random: &mut Random,
) -> Result<(), Fault> {
    let before = (public_key.to_vec(), secret_key.to_vec());
    let (mut public_by_product, mut secret_by_product) = before.clone();
    let mut work = Work::leavings(order.room, random);
    let (number, told) =
        product::make(order, &mut public_by_product, &mut secret_by_product, &mut work);
    let answer = make(order, public_key, secret_key);
    assert!(work.is_zero(), "work memory is zero after {answer:?}");
    assert_eq!(told, report(answer), "the report of {answer:?}");
    assert_eq!(number, told[0], "the number of {answer:?}");
    // Without the bytes: a megabyte of them tells nobody anything.
    assert!(public_key == public_by_product, "public keys after {answer:?}");
    assert!(secret_key == secret_by_product, "secret keys after {answer:?}");
    if answer.is_err() {
        assert!(public_key == before.0, "public key unchanged after {answer:?}");
        assert!(secret_key == before.1, "secret key unchanged after {answer:?}");
    }
    answer
}

/// Makes into outputs that hold something else before, and gives them too. They have
/// the lengths of the level, or of the sample if it is none.
fn make_to_random(order: &Order, random: &mut Random) -> (Result<(), Fault>, Vec<u8>, Vec<u8>) {
    let level = Level::named(order.level).unwrap_or(&LEVELS[0]);
    let mut public_key = random.bytes(level.public_key());
    let mut secret_key = random.bytes(level.secret_key());
    let answer = make_by_both(order, &mut public_key, &mut secret_key, random);
    (answer, public_key, secret_key)
}

// Data

/// Random, but for the first two.
fn seed(round: usize, random: &mut Random) -> [u8; 32] {
    match round {
        0 => [0; 32],
        1 => [0xff; 32],
        _ => random.seed(),
    }
}

/// A code seed and a decoy seed, with H of the former by the twin, which finds out
/// about mixing seeds.
struct Seeds {
    level: &'static Level,
    code_seed: [u8; 32],
    decoy_seed: [u8; 32],
    parity_check: ParityCheck,
}

impl Seeds {
    fn draw(level: &'static Level, random: &mut Random) -> Self {
        let (code_seed, decoy_seed) = (random.seed(), random.seed());
        let parity_check = Code::of_seed(level, &code_seed).parity_check();
        Seeds { level, code_seed, decoy_seed, parity_check }
    }

    fn order<'a>(&'a self, mixing_seeds: &'a [u8]) -> Order<'a> {
        Order {
            level: self.level.name.as_bytes(),
            code_seed: &self.code_seed,
            mixing_seeds,
            decoy_seed: &self.decoy_seed,
            room: self.level.room,
        }
    }

    fn usable(&self, random: &mut Random) -> [u8; 32] {
        self.mixing_seed(true, random)
    }

    fn unusable(&self, random: &mut Random) -> [u8; 32] {
        self.mixing_seed(false, random)
    }

    fn mixing_seed(&self, usable: bool, random: &mut Random) -> [u8; 32] {
        loop {
            let seed = random.seed();
            if self.parity_check.usable(&seed).is_some() == usable {
                return seed;
            }
        }
    }
}
