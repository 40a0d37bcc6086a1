//! The product's program that seals one ticket, run as a customer runs it: what
//! it prints against the twin, at every level, and its refusals.

#[path = "common/runs.rs"]
mod runs;

use runs::{lines, refusal, run, Lines};
use twin::hash::{hex, Hash, Kind};
use twin::level::{Level, HEAD, KEY, LEVELS};
use twin::random::Random;
use twin::seal::{seal, Order};

/// What the program prints for these files.
fn printed(level: &str, public_key: &[u8], ticket_seed: &[u8]) -> Lines {
    run("seal_task", level, &[("public_key", public_key), ("ticket_seed", ticket_seed)])
}

/// What it should print of a ticket that is sealed with SHA3-512.
fn sealed(level: &Level, public_key: &[u8], ticket_seed: &[u8]) -> Lines {
    let order = Order {
        level: level.name.as_bytes(),
        public_key,
        ticket_seed,
        hash: Hash::full(Kind::Sha3),
        room: level.room,
    };
    let (mut ticket, mut key) = (vec![0; level.ticket()], [0; KEY]);
    seal(&order, &mut ticket, &mut key).expect("the twin seals");
    lines(&[
        ("level", level.name.to_string()),
        ("public_key", hex(public_key)),
        ("ticket_seed", hex(ticket_seed)),
        ("head", hex(&ticket[..HEAD])),
        ("body", hex(&ticket[HEAD..])),
        ("ticket", hex(&ticket)),
        ("key", hex(&key)),
    ])
}

#[test]
fn a_ticket_at_every_level() {
    let mut random = Random::new(31);
    for level in &LEVELS {
        let public_key = random.bytes(level.public_key());
        let seed = random.seed();
        assert_eq!(printed(level.name, &public_key, &seed), sealed(level, &public_key, &seed));
    }
}

#[test]
fn a_refusal_in_four_lines() {
    let refused = |number: u8, place: usize| refusal(number, "call", place);
    assert_eq!(printed("160", &[1; 96], &[2; 32])[3..], refused(1, 0));
    assert_eq!(printed("sample", &[1; 96], &[2; 31])[3..], refused(3, 1));
    assert_eq!(printed("sample", &[1; 97], &[2; 31])[3..], refused(3, 0));
}
