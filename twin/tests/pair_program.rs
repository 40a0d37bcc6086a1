//! The product's program that makes a pair of keys and seals a ticket to it, run as
//! a shop and its customer run it: what it prints against the twin, and its refusals.

#[path = "common/runs.rs"]
mod runs;

use runs::{lines, refusal, run, Lines};
use twin::cases::pairs as outside_pairs;
use twin::code::Code;
use twin::hash::{hex, Hash, Kind};
use twin::level::{Level, HEAD, KEY, LEVELS};
use twin::make::{self, make};
use twin::random::Random;
use twin::seal::{self, seal};

/// The lines that tell what a make is given, of which every run prints all.
const GIVEN: usize = 4;

/// What the program is given.
#[derive(Clone)]
struct Task {
    level: &'static str,
    code_seed: Vec<u8>,
    mixing_seeds: Vec<u8>,
    decoy_seed: Vec<u8>,
    ticket_seed: Vec<u8>,
}

impl Task {
    /// With a list of this many unusable mixing seeds and then a usable one.
    fn draw(level: &'static Level, unusable: usize, random: &mut Random) -> Self {
        let code_seed = random.seed();
        let parity_check = Code::of_seed(level, &code_seed).parity_check();
        let mut seed = |usable: bool| loop {
            let seed = random.seed();
            if parity_check.usable(&seed).is_some() == usable {
                return seed;
            }
        };
        let mixing_seeds = (0..=unusable).flat_map(|i| seed(i == unusable)).collect();
        Task {
            level: level.name,
            code_seed: code_seed.to_vec(),
            mixing_seeds,
            decoy_seed: random.seed().to_vec(),
            ticket_seed: random.seed().to_vec(),
        }
    }

    /// The `name=value` lines that the program prints.
    fn run(&self) -> Lines {
        let files: [(&str, &[u8]); 4] = [
            ("code_seed", &self.code_seed),
            ("mixing_seeds", &self.mixing_seeds),
            ("decoy_seed", &self.decoy_seed),
            ("ticket_seed", &self.ticket_seed),
        ];
        run("pair_task", self.level, &files)
    }

    /// What it should print, by the twin, with a ticket that is sealed with SHA3-512.
    fn expected(&self) -> Lines {
        let level = Level::named(self.level.as_bytes()).expect("a level");
        let (mut public_key, mut secret_key) =
            (vec![0; level.public_key()], vec![0; level.secret_key()]);
        let order = make::Order {
            level: self.level.as_bytes(),
            code_seed: &self.code_seed,
            mixing_seeds: &self.mixing_seeds,
            decoy_seed: &self.decoy_seed,
            room: level.room,
        };
        make(&order, &mut public_key, &mut secret_key).expect("the twin makes");
        let order = seal::Order {
            level: self.level.as_bytes(),
            public_key: &public_key,
            ticket_seed: &self.ticket_seed,
            hash: Hash::full(Kind::Sha3),
            room: level.room,
        };
        let (mut ticket, mut key) = (vec![0; level.ticket()], [0; KEY]);
        seal(&order, &mut ticket, &mut key).expect("the twin seals");
        lines(&[
            ("level", self.level.to_string()),
            ("code_seed", hex(&self.code_seed)),
            ("mixing_seeds", hex(&self.mixing_seeds)),
            ("decoy_seed", hex(&self.decoy_seed)),
            ("public_key", hex(&public_key)),
            ("secret_key", hex(&secret_key)),
            ("ticket_seed", hex(&self.ticket_seed)),
            ("head", hex(&ticket[..HEAD])),
            ("body", hex(&ticket[HEAD..])),
            ("ticket", hex(&ticket)),
            ("key", hex(&key)),
        ])
    }

    /// Without the lines: hundreds of thousands of digits tell nobody anything.
    fn assert_runs(&self) {
        assert!(self.run() == self.expected(), "a pair and a ticket at {}", self.level);
    }
}

#[test]
fn a_pair_and_a_ticket() {
    let mut random = Random::new(31);
    for (level, unusable) in [(0, 0), (0, 1), (0, 5), (0, 63), (1, 0), (1, 2)] {
        Task::draw(&LEVELS[level], unusable, &mut random).assert_runs();
    }
}

/// The sample pairs of the outside vectors, with their tickets of SHA3-512.
#[test]
fn outside_pairs_and_tickets() {
    for pair in outside_pairs().iter().filter(|pair| pair.level.name == "sample") {
        for case in pair.sealed.iter().filter(|case| case.kind == Kind::Sha3) {
            let task = Task {
                level: pair.level.name,
                code_seed: pair.code_seed.to_vec(),
                mixing_seeds: pair.mixing_seeds.concat(),
                decoy_seed: pair.decoy_seed.to_vec(),
                ticket_seed: case.seed.to_vec(),
            };
            let printed = task.run();
            assert_eq!(printed, task.expected());
            let ends = lines(&[("ticket", hex(&case.ticket)), ("key", hex(&case.key))]);
            assert!(printed.ends_with(&ends));
        }
    }
}

#[test]
fn a_refused_pair_in_four_lines() {
    let mut random = Random::new(32);
    let task = Task::draw(&LEVELS[0], 3, &mut random);
    let unusable = task.mixing_seeds[..96].to_vec();
    let cases = [
        (Task { level: "160", ..task.clone() }, refusal(1, "call", 0)),
        (Task { code_seed: vec![1; 31], ..task.clone() }, refusal(3, "call", 0)),
        (Task { mixing_seeds: vec![1; 33], ..task.clone() }, refusal(3, "call", 1)),
        (Task { mixing_seeds: vec![1; 65 * 32], ..task.clone() }, refusal(3, "call", 1)),
        (Task { decoy_seed: vec![1; 33], ..task.clone() }, refusal(3, "call", 2)),
        (Task { mixing_seeds: vec![], ..task.clone() }, refusal(6, "key", 0)),
        (Task { mixing_seeds: unusable, ..task.clone() }, refusal(6, "key", 3)),
    ];
    for (task, expected) in cases {
        assert_eq!(task.run()[GIVEN..], expected);
    }
}

#[test]
fn a_refused_ticket_in_four_lines() {
    let mut random = Random::new(33);
    let task = Task::draw(&LEVELS[0], 0, &mut random);
    let expected = task.expected();
    for length in [0, 31, 33] {
        let wrong = Task { ticket_seed: random.bytes(length), ..task.clone() };
        let printed = wrong.run();
        assert_eq!(printed[..GIVEN + 2], expected[..GIVEN + 2]);
        assert_eq!(printed[GIVEN + 2..][..1], lines(&[("ticket_seed", hex(&wrong.ticket_seed))]));
        assert_eq!(printed[GIVEN + 3..], refusal(3, "call", 1));
    }
}
