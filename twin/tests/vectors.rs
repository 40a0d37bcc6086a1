//! The outside vectors, run by the twin and by the product.

mod common;

use common::{product, seal_by_both};
use twin::bits::ones;
use twin::cases::{pairs, sealed, seals, shuffles, Pair, Sealed};
use twin::hash::{hex, Hash, Kind};
use twin::make::make;
use twin::random::Random;
use twin::seal::Order;
use twin::shuffle;

#[test]
fn tickets_of_the_sample_level() {
    let mut random = Random::new(101);
    let cases: Vec<Sealed> =
        sealed().into_iter().filter(|case| case.public_key.is_some()).collect();
    assert_eq!(cases.len(), 18);
    for case in cases {
        let order = Order {
            level: case.level.name.as_bytes(),
            public_key: case.public_key.as_deref().expect("filtered"),
            ticket_seed: &case.seed,
            hash: Hash::full(case.kind),
            room: case.level.room,
        };
        let mut ticket = random.bytes(case.level.ticket());
        let mut key = random.bytes(32);
        assert_eq!(seal_by_both(&order, &mut ticket, &mut key, &mut random), Ok(()));
        assert_eq!((ticket, key), (case.ticket, case.key));
    }
}

/// Head and key need no public key, so the large levels' tickets can be followed
/// but for their bodies.
#[test]
fn heads_and_keys_of_every_level() {
    let cases = sealed();
    assert_eq!(cases.len(), 24);
    for case in cases {
        let vector = error_vector_by_product(&case);
        assert_eq!(ones(&vector) as usize, case.level.t);
        assert_eq!(vector, shuffle::error_vector(case.level.n, case.level.t, &case.seed));
        let (head, body) = case.ticket.split_at(32);
        assert_eq!(hash_by_product(case.kind, &[b"PALOMAGG", &vector]), head);
        assert_eq!(hash_by_product(case.kind, &[b"PALOMAHH", &vector, head, body]), case.key[..]);
    }
}

fn error_vector_by_product(case: &Sealed) -> Vec<u8> {
    let mut out = vec![0; case.level.vector()];
    let mut positions = vec![0; case.level.n];
    let level = case.level.name.as_bytes();
    assert_eq!(product::error_vector(level, &case.seed, &mut out, &mut positions), 0);
    out
}

fn hash_by_product(kind: Kind, parts: &[&[u8]]) -> [u8; 32] {
    let mut out = [0; 32];
    assert_eq!(product::hash(Hash::full(kind), &parts.concat(), &mut out), 0);
    out
}

/// Public keys that are too long to be written in the vectors are made by the
/// twin, and held to their written digests.
#[test]
fn tickets_of_the_large_levels() {
    let mut random = Random::new(105);
    let pairs: Vec<Pair> = pairs().into_iter().filter(|pair| pair.level.name != "sample").collect();
    assert_eq!(pairs.len(), 3);
    for pair in pairs {
        let mut public_key = vec![0; pair.level.public_key()];
        let mut secret_key = vec![0; pair.level.secret_key()];
        make(&pair.order(), &mut public_key, &mut secret_key).expect("the twin makes the pair");
        assert!(pair.public_key.is(&public_key));
        for case in &pair.sealed {
            let order = Order {
                level: pair.level.name.as_bytes(),
                public_key: &public_key,
                ticket_seed: &case.seed,
                hash: Hash::full(case.kind),
                room: pair.level.room,
            };
            let mut ticket = random.bytes(pair.level.ticket());
            let mut key = random.bytes(32);
            assert_eq!(seal_by_both(&order, &mut ticket, &mut key, &mut random), Ok(()));
            assert_eq!((&ticket, &key), (&case.ticket, &case.key));
        }
    }
}

#[test]
fn answers_of_seals() {
    let mut random = Random::new(102);
    let calls = seals();
    assert_eq!(calls.len(), 5);
    for call in calls {
        for kind in Kind::BOTH {
            let (mut ticket, mut key) = (call.ticket.clone(), call.key.clone());
            let answer = seal_by_both(&call.order(kind), &mut ticket, &mut key, &mut random);
            assert_eq!(answer, call.answer, "{}", call.note);
        }
    }
}

#[test]
fn shuffled_lists() {
    let cases = shuffles();
    assert_eq!(cases.len(), 12);
    for case in cases {
        let mut items: Vec<u32> = (0..).take(case.n).collect();
        assert_eq!(product::shuffle(&case.seed, &mut items), 0);
        assert!(case.order.is(&items), "the product, length {}", case.n);
        assert!(case.order.is(&shuffle::order(case.n, &case.seed)), "the twin, length {}", case.n);
    }
}

/// The messages of the two standards' examples, with the first 32 bytes of their
/// SHA3-512 and SHA-512.
const OFFICIAL: [(&str, &str, &str); 4] = [
    (
        "",
        "a69f73cca23a9ac5c8b567dc185a756e97c982164fe25859e0d1dcc1475c80a6",
        "cf83e1357eefb8bdf1542850d66d8007d620e4050b5715dc83f4a921d36ce9ce",
    ),
    (
        "abc",
        "b751850b1a57168a5693cd924b6b096e08f621827444f70d884f5d0240d2712e",
        "ddaf35a193617abacc417349ae20413112e6fa4e89a97ea20a9eeee64b55d39a",
    ),
    (
        "abcdbcdecdefdefgefghfghighijhijkijkljklmklmnlmnomnopnopq",
        "04a371e84ecfb5b8b77cb48610fca8182dd457ce6f326a0fd3d7ec2f1e91636d",
        "204a8fc6dda82f0a0ced7beb8e08a41657c16ef468b228a8279be331a703c335",
    ),
    (
        "abcdefghbcdefghicdefghijdefghijkefghijklfghijklmghijklmnhijklmnoijklmnopjklmnopqklmnopqrlmnopqrsmnopqrstnopqrstu",
        "afebb2ef542e6579c50cad06d2e578f9f8dd6881d7dc824d26360feebf18a4fa",
        "8e959b75dae313da8cf4f72814fc143f8f7779c6eb9f7fa17299aeadb6889018",
    ),
];

#[test]
fn official_digests() {
    for (message, by_sha3, by_sha2) in OFFICIAL {
        for (kind, digest) in [(Kind::Sha3, by_sha3), (Kind::Sha2, by_sha2)] {
            let mut out = [0; 32];
            assert_eq!(product::hash(Hash::full(kind), message.as_bytes(), &mut out), 0);
            assert_eq!(hex(&out), digest, "{kind:?} of {message:?}");
            assert_eq!(hex(&kind.rule(message.as_bytes())), digest, "the twin's");
        }
    }
}
