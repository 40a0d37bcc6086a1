//! The product beside the twin, on random data that is the same on every run.

mod common;

use common::data::{surplus, too_few, with_surplus, wrong_length, NO_LEVELS};
use common::{product, seal_by_both};
use twin::bits::ones;
use twin::fault::{Fault, Layer};
use twin::hash::{Hash, Kind, CAPACITY};
use twin::level::{Level, Room, LEVELS};
use twin::random::Random;
use twin::seal::Order;
use twin::shuffle::{error_vector, order, perm, perm_inv, shuffle};

/// Lengths at and beside the ends of the blocks of 72 and of 128 bytes, and of the
/// room that SHA-512's padding needs.
const EDGES: [usize; 22] = [
    0, 1, 7, 8, 71, 72, 73, 111, 112, 113, 127, 128, 129, 143, 144, 145, 239, 240, 241, 255, 256,
    257,
];

const LONG: [usize; 9] =
    [1_000, 4_096, 65_407, 65_408, 65_519, 65_520, 65_521, CAPACITY - 1, CAPACITY];

// Hashes

#[test]
fn hashes_of_every_length() {
    let mut random = Random::new(1);
    for length in (0..=300).chain(LONG) {
        let data = random.bytes(length);
        for kind in Kind::BOTH {
            assert_hash(Hash::full(kind), &data, &mut random);
        }
    }
}

#[test]
fn a_hash_takes_its_capacity_and_no_more() {
    let mut random = Random::new(2);
    let data = random.bytes(CAPACITY + 2);
    for kind in Kind::BOTH {
        for asked in EDGES.into_iter().chain(LONG).chain([CAPACITY + 1, usize::MAX]) {
            let hash = Hash::new(kind, asked);
            for length in hash.capacity().saturating_sub(1)..=hash.capacity() + 2 {
                assert_hash(hash, &data[..length], &mut random);
            }
        }
    }
}

#[test]
fn a_hash_needs_32_bytes_to_write_to() {
    let mut random = Random::new(3);
    for kind in Kind::BOTH {
        for (asked, length) in [(CAPACITY, 10), (9, 10)] {
            for room in [0, 1, 31, 33, 64] {
                let data = random.bytes(length);
                let before = random.bytes(room);
                let mut out = before.clone();
                assert_eq!(product::hash(Hash::new(kind, asked), &data, &mut out), 3);
                assert_eq!(out, before);
                assert_eq!(product::hash_in_two(kind, &data, &data, &mut out), 3);
                assert_eq!(out, before);
            }
        }
    }
}

fn assert_hash(hash: Hash, data: &[u8], random: &mut Random) {
    let before = random.seed();
    let mut out = before;
    let number = product::hash(hash, data, &mut out);
    let (expected, written) = expected_hash(hash, data, before);
    assert_eq!((number, out), (expected, written), "{hash:?}, {} bytes", data.len());
}

#[test]
fn hashes_in_two_pieces() {
    let mut random = Random::new(4);
    for length in 0..=300 {
        let data = random.bytes(length);
        let cuts: Vec<usize> = EDGES.into_iter().filter(|&cut| cut <= length).collect();
        for cut in cuts.into_iter().chain([random.below(length + 1), length]) {
            assert_hash_in_two(&data, cut, &mut random);
        }
    }
    for length in EDGES {
        let data = random.bytes(length);
        for cut in 0..=length {
            assert_hash_in_two(&data, cut, &mut random);
        }
    }
}

#[test]
fn two_pieces_share_the_capacity() {
    let mut random = Random::new(5);
    for length in [CAPACITY - 1, CAPACITY, CAPACITY + 1, 2 * CAPACITY] {
        let data = random.bytes(length);
        for cut in [0, 1, 72, 128, 40_000, CAPACITY - 1, CAPACITY, CAPACITY + 1, length] {
            assert_hash_in_two(&data, cut.min(length), &mut random);
        }
    }
}

fn assert_hash_in_two(data: &[u8], cut: usize, random: &mut Random) {
    let (first, second) = data.split_at(cut);
    for kind in Kind::BOTH {
        let before = random.seed();
        let mut out = before;
        let number = product::hash_in_two(kind, first, second, &mut out);
        let (expected, written) = expected_hash(Hash::full(kind), data, before);
        assert_eq!((number, out), (expected, written), "{kind:?}, {} cut at {cut}", data.len());
    }
}

/// The number given back, and what stands in the output afterwards.
fn expected_hash(hash: Hash, data: &[u8], before: [u8; 32]) -> (u64, [u8; 32]) {
    match hash.digest(data) {
        Ok(digest) => (0, digest),
        Err(fault) => (fault.number.into(), before),
    }
}

// Shuffles and error vectors

#[test]
fn shuffles_of_many_lengths() {
    let mut random = Random::new(6);
    let long = [255, 256, 257, 3_904, 5_568, 6_592, 8_192, 16_384, 65_535, 65_536, 65_537, 70_000];
    for n in (0..=200).chain(long) {
        for seed in [[0; 32], [0xff; 32], random.seed(), random.seed()] {
            let mut numbers: Vec<u32> = (0..).take(n).collect();
            assert_eq!(product::shuffle(&seed, &mut numbers), 0);
            assert_eq!(numbers, order(n, &seed), "length {n}");

            let mut expected = random.numbers32(n);
            let mut items = expected.clone();
            shuffle(&mut expected, &seed);
            assert_eq!(product::shuffle(&seed, &mut items), 0);
            assert_eq!(items, expected, "any items, length {n}");
        }
    }
}

#[test]
fn a_shuffle_needs_a_whole_seed() {
    let mut random = Random::new(7);
    for length in [0, 1, 31, 33, 64] {
        let before = random.numbers32(56);
        let mut items = before.clone();
        assert_eq!(product::shuffle(&random.bytes(length), &mut items), 3);
        assert_eq!(items, before);
    }
}

#[test]
fn permutations_undo_each_other() {
    let mut random = Random::new(8);
    let vectors = LEVELS.iter().map(Level::vector);
    for length in (0..=64).chain(vectors) {
        for seed in [[0; 32], [0xff; 32], random.seed(), random.seed()] {
            let vector = random.bytes(length);
            let order = order(8 * length, &seed);
            let forth = permuted(&seed, false, &vector, &mut random);
            let back = permuted(&seed, true, &vector, &mut random);
            assert_eq!(forth, perm(&order, &vector), "{length} bytes");
            assert_eq!(back, perm_inv(&order, &vector), "{length} bytes");
            assert_eq!(permuted(&seed, true, &forth, &mut random), vector);
            assert_eq!(permuted(&seed, false, &back, &mut random), vector);
        }
    }
}

fn permuted(seed: &[u8], inverse: bool, vector: &[u8], random: &mut Random) -> Vec<u8> {
    let mut out = random.bytes(vector.len());
    let surplus = surplus(random);
    let mut positions = random.numbers32(8 * vector.len() + surplus);
    assert_eq!(product::permute(seed, inverse, vector, &mut out, &mut positions), 0);
    assert_zero(&positions);
    out
}

#[test]
fn permutations_refuse_wrong_lengths() {
    let mut random = Random::new(9);
    for (seed, out, positions) in
        [(31, 7, 56), (33, 7, 56), (0, 7, 56), (32, 6, 56), (32, 8, 64), (32, 0, 56), (32, 7, 55)]
    {
        for inverse in [false, true] {
            let (seed, vector) = (random.bytes(seed), random.bytes(7));
            let before = random.bytes(out);
            let mut out = before.clone();
            let mut positions = random.numbers32(positions);
            let number = product::permute(&seed, inverse, &vector, &mut out, &mut positions);
            assert_eq!(number, 3);
            assert_eq!(out, before);
            assert_zero(&positions);
        }
    }
}

#[test]
fn error_vectors() {
    let mut random = Random::new(10);
    for level in &LEVELS {
        for round in 0..40 {
            let seed = ticket_seed(round, &mut random);
            let mut out = random.bytes(level.vector());
            let surplus = surplus(&mut random);
            let mut positions = random.numbers32(level.n + surplus);
            let name = level.name.as_bytes();
            assert_eq!(product::error_vector(name, &seed, &mut out, &mut positions), 0);
            assert_eq!(out, error_vector(level.n, level.t, &seed), "{}", level.name);
            assert_eq!(ones(&out) as usize, level.t);
            assert_zero(&positions);
        }
    }
}

#[test]
fn error_vectors_refuse_in_order() {
    let mut random = Random::new(11);
    for level in &LEVELS {
        for wrong in 1..16 {
            let is_wrong = |fault: u32| wrong >> fault & 1 == 1;
            let name = if is_wrong(0) { b"160" } else { level.name.as_bytes() };
            let seed = if is_wrong(1) { wrong_length(32, &mut random) } else { 32 };
            let right = level.vector();
            let out = if is_wrong(2) { wrong_length(right, &mut random) } else { right };
            let short = if is_wrong(3) { too_few(level.n, &mut random) } else { level.n };
            let before = random.bytes(out);
            let mut out = before.clone();
            let mut positions = random.numbers32(short);
            let seed = random.bytes(seed);
            let number = product::error_vector(name, &seed, &mut out, &mut positions);
            assert_eq!(number, [1, 3, 3, 4][(wrong as u32).trailing_zeros() as usize]);
            assert_eq!(out, before);
            assert_zero(&positions);
        }
    }
}

// Seals

#[test]
fn seals_at_every_level() {
    let mut random = Random::new(12);
    for (level, rounds) in LEVELS.iter().zip([150, 40, 20, 20]) {
        for round in 0..rounds {
            let seed = ticket_seed(round, &mut random);
            let public_key = public_key(level, round, &mut random);
            for kind in Kind::BOTH {
                let order = Order {
                    level: level.name.as_bytes(),
                    public_key: &public_key,
                    ticket_seed: &seed,
                    hash: Hash::full(kind),
                    room: with_surplus(level.room, &mut random),
                };
                assert_eq!(seal_to_random(&order, &mut random), Ok(()), "{}", level.name);
            }
        }
    }
}

#[test]
fn the_capacity_decides_at_its_bound() {
    let mut random = Random::new(13);
    for (level, needed) in LEVELS.iter().zip([50, 632, 944, 1_072]) {
        let (public_key, seed) = (random.bytes(level.public_key()), random.seed());
        for kind in Kind::BOTH {
            for asked in [0, 7, 8, needed - 1, needed, needed + 1, CAPACITY, usize::MAX] {
                let order = Order {
                    level: level.name.as_bytes(),
                    public_key: &public_key,
                    ticket_seed: &seed,
                    hash: Hash::new(kind, asked),
                    room: level.room,
                };
                let refused = Err(Fault::new(5, Layer::Hash, 0));
                let expected = if asked < needed { refused } else { Ok(()) };
                assert_eq!(seal_to_random(&order, &mut random), expected, "capacity {asked}");
            }
        }
    }
}

#[test]
fn names_that_are_no_level() {
    let mut random = Random::new(14);
    let (public_key, seed) = (random.bytes(96), random.seed());
    for name in NO_LEVELS {
        let order = Order {
            level: name,
            public_key: &public_key,
            ticket_seed: &seed,
            hash: Hash::full(Kind::Sha3),
            room: with_surplus(LEVELS[0].room, &mut random),
        };
        let answer = seal_to_random(&order, &mut random);
        assert_eq!(answer, Err(Fault::new(1, Layer::Call, 0)), "{name:?}");
        let (mut out, mut positions) = (vec![0; 7], random.numbers32(56));
        assert_eq!(product::error_vector(name, &seed, &mut out, &mut positions), 1, "{name:?}");
    }
}

#[test]
fn buffers_of_another_level() {
    let mut random = Random::new(15);
    for level in &LEVELS {
        for other in LEVELS.iter().filter(|other| other.name != level.name) {
            let seed = random.seed();
            let order = Order {
                level: level.name.as_bytes(),
                public_key: &random.bytes(other.public_key()),
                ticket_seed: &seed,
                hash: Hash::full(Kind::Sha2),
                room: level.room,
            };
            let mut buffers = (random.bytes(other.ticket()), random.bytes(32));
            let answer = seal_by_both(&order, &mut buffers.0, &mut buffers.1, &mut random);
            assert_eq!(answer, Err(Fault::new(3, Layer::Call, 0)));
            let order = Order { public_key: &random.bytes(level.public_key()), ..order };
            let answer = seal_by_both(&order, &mut buffers.0, &mut buffers.1, &mut random);
            let fits = level.ticket() == other.ticket();
            assert_eq!(answer, if fits { Ok(()) } else { Err(Fault::new(3, Layer::Call, 2)) });
        }
    }
}

/// What can be wrong with a seal, in the order in which it answers.
const FAULTS: [Fault; 9] = [
    Fault::new(1, Layer::Call, 0),
    Fault::new(3, Layer::Call, 0),
    Fault::new(3, Layer::Call, 1),
    Fault::new(3, Layer::Call, 2),
    Fault::new(3, Layer::Call, 3),
    Fault::new(4, Layer::Call, 0),
    Fault::new(4, Layer::Call, 1),
    Fault::new(4, Layer::Call, 2),
    Fault::new(5, Layer::Hash, 0),
];

/// Every set of faults at once: the first of them answers.
#[test]
fn the_first_fault_answers() {
    let mut random = Random::new(16);
    for level in &LEVELS {
        let public_key = random.bytes(2 * level.public_key());
        for wrong in 0..1_u32 << FAULTS.len() {
            let answer = seal_with_faults(level, wrong, &public_key, &mut random);
            let expected = match FAULTS.get(wrong.trailing_zeros() as usize) {
                Some(fault) => Err(*fault),
                None => Ok(()),
            };
            assert_eq!(answer, expected, "{}, faults {wrong:09b}", level.name);
        }
    }
}

/// Bit i of `wrong` says that fault i is there.
fn seal_with_faults(
    level: &Level,
    wrong: u32,
    public_key: &[u8],
    random: &mut Random,
) -> Result<(), Fault> {
    let is_wrong = |fault: usize| wrong >> fault & 1 == 1;
    let [public_key_length, seed_length, ticket_length, key_length] =
        [(1, level.public_key()), (2, 32), (3, level.ticket()), (4, 32)].map(|(fault, right)| {
            if is_wrong(fault) {
                wrong_length(right, random)
            } else {
                right
            }
        });
    let [bytes, places, positions] =
        [(5, level.room.bytes), (6, level.room.places), (7, level.room.positions)]
            .map(|(fault, least)| if is_wrong(fault) { too_few(least, random) } else { least });
    let needed = level.capacity();
    let capacity = if is_wrong(8) { too_few(needed, random) } else { needed };
    let kind = Kind::BOTH[random.below(2)];
    let order = Order {
        level: if is_wrong(0) { NO_LEVELS[random.below(16)] } else { level.name.as_bytes() },
        public_key: &public_key[..public_key_length],
        ticket_seed: &random.bytes(seed_length),
        hash: Hash::new(kind, capacity),
        room: Room { bytes, places, positions },
    };
    let (mut ticket, mut key) = (random.bytes(ticket_length), random.bytes(key_length));
    seal_by_both(&order, &mut ticket, &mut key, random)
}

/// Seals into outputs that hold something else before. They have the lengths of
/// the level, or of the sample if it is none.
fn seal_to_random(order: &Order, random: &mut Random) -> Result<(), Fault> {
    let level = Level::named(order.level).unwrap_or(&LEVELS[0]);
    let (mut ticket, mut key) = (random.bytes(level.ticket()), random.bytes(32));
    seal_by_both(order, &mut ticket, &mut key, random)
}

// Data

/// Random, but for the first two.
fn ticket_seed(round: usize, random: &mut Random) -> [u8; 32] {
    match round {
        0 => [0; 32],
        1 => [0xff; 32],
        _ => random.seed(),
    }
}

/// Random, but for the third and the fourth.
fn public_key(level: &Level, round: usize, random: &mut Random) -> Vec<u8> {
    match round {
        2 => vec![0; level.public_key()],
        3 => vec![0xff; level.public_key()],
        _ => random.bytes(level.public_key()),
    }
}

fn assert_zero(positions: &[u32]) {
    assert!(positions.iter().all(|&position| position == 0), "work memory is zero");
}
